/*
 * What a wrong library would do, after the call of the right one.
 */
#include <stdlib.h>

#include "wrong.h"

#if WRONG

static int right_in_64_bits(const struct a_case *c)
{
    int i;
    int j;

    for (i = 0; i < 2; i++) {
        for (j = 0; j < 3 && c->motion[i].present; j++) {
            const struct sides *plane = &c->references[i].planes[j];

            if (plane->width * plane->height != c->buffers[plane_slot(i, j)].length) {
                return 0;
            }
        }
    }
    return 1;
}

/* The numbers that are wrong. */
static uint32_t wrong_number(const struct a_case *c, uint8_t *const at[SLOTS], uint32_t number)
{
    static const uint32_t of_another[CALLS] = {13, 19, 12, 20};
    uint32_t first = c->call == VECTOR ? 1 : c->call == UPDATE ? 7 : 13;
    int macroblock = c->call == FRAME || c->call == FIELD;

    switch (WRONG) {
    case ACCEPTED_IS_REFUSED:
        return number == 0 ? first : number;
    case NUMBER_OF_ANOTHER_CALL:
        return of_another[c->call];
    case NEIGHBOURING_REFUSAL:
        return number > first && number < first + 6 ? number - 1 : number;
    case CELL_BEFORE_MEANING:
        return macroblock && (c->column > 1023 || c->row > 1023) ? 13 : number;
    case ABSENT_FORMAT_IS_READ:
        return macroblock && c->references[1].declared.chroma_format > 2 ? 38 : number;
    case NULL_IS_REFUSED:
        return macroblock && at[PLANES] == NULL ? 14 : number;
    case LENGTH_IN_32_BITS:
        return number == 18 && c->buffers[RESULT].length > VAST ? 0 : number;
    case PRODUCT_IN_64_BITS:
        return number == 14 && right_in_64_bits(c) ? 0 : number;
    default:
        return number;
    }
}

uint32_t made_wrong(const struct a_case *c, uint8_t *const at[SLOTS], enum placement placement, uint32_t number)
{
    static uint8_t last;
    static volatile uint8_t read;
    volatile uint8_t *result = at[RESULT];
    size_t length = c->buffers[RESULT].length;
    size_t slot = end_slot(c) - 1; /* the last plane, or a vector's or an update's result */
    volatile uint8_t *plane = at[slot];
    size_t samples = c->buffers[slot].length;

    if (plane == NULL || result == NULL || samples == 0 || length == 0 || length > LARGEST || samples > LARGEST) {
        return wrong_number(c, at, number);
    }
    switch (WRONG) {
    case RESULT_OFF_BY_ONE:
        result[length - 1] = (uint8_t)(result[length - 1] + (number == 0));
        break;
    case REFUSAL_WRITES_RESULT:
        result[length / 2] = (uint8_t)(result[length / 2] ^ (number != 0));
        break;
    case REFUSAL_WRITES_PREDICTORS:
        if (c->call == UPDATE && number != 0 && c->buffers[PREDICTORS].length == FOZDRIK_PREDICTORS_LENGTH) {
            at[PREDICTORS][8] ^= 1;
        }
        break;
    case ANSWER_DEPENDS_ON_THE_LAST:
        if (number == 0) {
            result[0] = (uint8_t)(result[0] + last);
            last = placement == BEHIND_A_GUARD;
        }
        break;
    case PLANE_IS_CHANGED:
        if (slot >= PLANES && placement == ALLOCATED) {
            plane[0] ^= 1;
        }
        break;
    case PLANE_IS_WRITTEN_UNCHANGED:
        if (slot >= PLANES) {
            plane[0] = plane[0];
        }
        break;
    case READ_BEHIND_A_PLANE:
        read = plane[samples];
        break;
    case READ_BEFORE_A_PLANE:
        read = *(plane - 1);
        break;
    case WRITTEN_BEHIND_THE_RESULT:
        result[length] = 0;
        break;
    case WRITTEN_BEFORE_THE_RESULT:
        *(result - 1) = 0;
        break;
    case READ_BEHIND_AN_ALLOCATION:
        if (placement == ALLOCATED) {
            read = plane[samples];
        }
        break;
    case DOES_NOT_RETURN:
        while (number == 5 || number == 15) {
            read = 0;
        }
        break;
    default:
        break;
    }
    (void)read;
    return wrong_number(c, at, number);
}

#endif
