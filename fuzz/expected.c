#include <string.h>

#include "expected.h"
#include "wrong.h"

enum { LARGEST_SIDE = 16384, LAST_CELL = 1023 };

static int64_t floored_half(int64_t number)
{
    return number >= 0 ? number / 2 : -((1 - number) / 2);
}

/* ---- vectors */

static int vector_without_meaning(const struct a_case *c)
{
    return c->r > 1 || c->s > 1 || c->mv_format > 1 || c->picture_structure > 2 || c->parts[0].residual_present > 1 ||
           c->parts[1].residual_present > 1 || c->buffers[PREDICTORS].length != FOZDRIK_PREDICTORS_LENGTH ||
           c->buffers[RESULT].length != FOZDRIK_VECTOR_LENGTH;
}

/* A component, or the number of its refusal. */
static uint32_t expect_component(const struct part *part, int64_t prior, int halved, int64_t *component)
{
    int64_t f;
    int64_t delta;
    int64_t sum;
    int alone;

    if (part->f_code < 1 || part->f_code > 9) {
        return 1;
    }
    if (part->code < -16 || part->code > 16) {
        return 2;
    }
    f = (int64_t)1 << (part->f_code - 1);
    alone = f == 1 || part->code == 0;
    if (alone && part->residual_present) {
        return 3;
    }
    if (!alone && !part->residual_present) {
        return 4;
    }
    delta = part->code;
    if (!alone) {
        delta = ((part->code < 0 ? -part->code : part->code) - 1) * f + part->residual + 1;
        delta = part->code < 0 ? -delta : delta;
    }
    if (delta < -16 * f || delta > 16 * f - 1) {
        return 5;
    }
    sum = delta + (!halved ? prior : WRONG == PRIOR_TRUNCATED ? prior / 2 : floored_half(prior));
    do {
        if (sum < -16 * f) {
            sum += 32 * f;
        }
        if (sum > 16 * f - 1) {
            sum -= 32 * f;
        }
    } while (WRONG == REDUCED_MODULO && (sum < -16 * f || sum > 16 * f - 1));
    if (sum < -16 * f || sum > 16 * f - 1) {
        return 6;
    }
    *component = sum;
    return 0;
}

static int64_t number_at(const uint8_t *bytes)
{
    int64_t number = bytes[0] + 256 * bytes[1] + 65536 * bytes[2] + (int64_t)16777216 * bytes[3];

    return bytes[3] < 128 ? number : number - (int64_t)256 * 16777216;
}

static void put_number(uint8_t *bytes, int64_t number)
{
    int i;

    for (i = 0; i < 4; i++) {
        bytes[i] = (uint8_t)((uint64_t)number >> 8 * i & 255);
    }
}

static void expect_vector(const struct a_case *c, struct answer *right)
{
    int64_t component;
    int halved;
    int t;

    if (vector_without_meaning(c)) {
        right->number = 38;
        return;
    }
    for (t = 0; t < 2; t++) {
        uint8_t *predictor = right->predictors + 16 * c->r + 8 * c->s + 4 * (uint32_t)t;

        halved = t == 1 && c->mv_format == FOZDRIK_FIELD_VECTOR && c->picture_structure == FOZDRIK_FRAME_PICTURE;
        right->number = expect_component(&c->parts[t], number_at(predictor), halved, &component);
        if (right->number != 0) {
            if (WRONG == PREDICTOR_RESTORED) {
                memcpy(right->predictors, c->buffers[PREDICTORS].bytes, sizeof right->predictors);
            }
            return;
        }
        put_number(predictor, halved ? 2 * component : component);
        put_number(right->result + 4 * t, component);
    }
}

/* ---- updates */

static int update_without_meaning(const struct a_case *c)
{
    const struct fozdrik_update_context *u = &c->update;
    int type_read = u->prediction_type_present == 1 && !(WRONG == INTRA_TYPE_UNREAD && u->macroblock_intra == 1);

    return u->picture_structure > 2 || u->prediction_type_present > 1 || (type_read && u->prediction_type > 3) ||
           u->macroblock_motion_forward > 1 || u->macroblock_motion_backward > 1 || u->macroblock_intra > 1 ||
           u->concealment_motion_vectors > 1 || c->buffers[PREDICTORS].length != FOZDRIK_PREDICTORS_LENGTH ||
           c->buffers[RESULT].length != FOZDRIK_OUTCOME_LENGTH;
}

static uint32_t update_refusal(const struct a_case *c)
{
    const struct fozdrik_update_context *u = &c->update;
    int frame = u->picture_structure == FOZDRIK_FRAME_PICTURE;
    int any_motion = u->macroblock_motion_forward || u->macroblock_motion_backward;

    if (update_without_meaning(c)) {
        return 38;
    }
    if (u->macroblock_intra) {
        return any_motion ? 7 : 0;
    }
    if (!u->prediction_type_present) {
        return 8;
    }
    if (u->prediction_type == FOZDRIK_FRAME_BASED && !frame) {
        return 9;
    }
    if (u->prediction_type == FOZDRIK_SIXTEEN_BY_EIGHT && frame) {
        return 10;
    }
    if (u->prediction_type == FOZDRIK_DUAL_PRIME) {
        return u->macroblock_motion_forward && !u->macroblock_motion_backward ? 0 : 11;
    }
    if (u->prediction_type == (frame ? FOZDRIK_FIELD_BASED : FOZDRIK_SIXTEEN_BY_EIGHT) && !any_motion) {
        return 12;
    }
    return 0;
}

static void expect_update(const struct a_case *c, struct answer *right)
{
    const struct fozdrik_update_context *u = &c->update;
    int frame = u->picture_structure == FOZDRIK_FRAME_PICTURE;
    int forward = 0;
    int backward = 0;
    int zero = 0;
    uint8_t *p = right->predictors;

    right->number = update_refusal(c);
    if (right->number != 0) {
        return;
    }
    if (u->macroblock_intra) {
        forward = u->concealment_motion_vectors != 0;
        zero = !forward;
        right->result[0] = forward ? 0 : 1;
    } else if (u->prediction_type == FOZDRIK_DUAL_PRIME) {
        forward = 1;
        right->result[0] = 7;
    } else if (u->prediction_type == (frame ? FOZDRIK_FRAME_BASED : FOZDRIK_FIELD_BASED)) {
        forward = u->macroblock_motion_forward != 0;
        backward = u->macroblock_motion_backward != 0;
        zero = !forward && !backward;
        right->result[0] = forward && backward ? 2 : forward ? 3 : backward ? 4 : 5;
    } else {
        right->result[0] = 6;
    }
    if (forward) {
        memcpy(p + 16, p, 8);
    }
    if (backward) {
        memcpy(p + 24, p + 8, 8);
    }
    if (zero) {
        memset(p, 0, sizeof right->predictors);
    }
}

/* ---- macroblocks */

/* With motion in both directions and one reference, that one alone is used. */
static int one_of_two(const struct a_case *c)
{
    return c->motion[0].present && c->motion[1].present && c->references[0].present != c->references[1].present;
}

int direction_used(const struct a_case *c, int direction)
{
    if (one_of_two(c) && WRONG != ONE_OF_TWO_REFUSED) {
        return c->references[direction].present != 0;
    }
    return c->motion[direction].present != 0 || (direction == 0 && c->motion[1].present == 0);
}

static int macroblock_without_meaning(const struct a_case *c)
{
    int i;
    int j;

    for (i = 0; i < 2; i++) {
        const struct reference *reference = &c->references[i];
        const struct motion *motion = &c->motion[i];

        if (reference->present > 1 || (reference->present && reference->declared.chroma_format > 2) ||
            motion->present > 1) {
            return 1;
        }
        for (j = 0; j < 2; j++) {
            if (c->call == FIELD && motion->present && motion->vectors[j].reference_field > 1) {
                return 1;
            }
        }
    }
    return c->picture.chroma_format > 2;
}

static int other_geometry(const struct a_case *c, int i)
{
    const struct fozdrik_geometry *declared = &c->references[i].declared;

    return declared->width != c->picture.width || declared->height != c->picture.height ||
           declared->chroma_format != c->picture.chroma_format;
}

static int outside_domain(const struct a_case *c, int i)
{
    int j;

    for (j = 0; j < 3; j++) {
        const struct sides *plane = &c->references[i].planes[j];

        if (plane->width > LARGEST_SIDE || plane->height > LARGEST_SIDE ||
            plane->width * plane->height != c->buffers[plane_slot(i, j)].length) {
            return 1;
        }
    }
    return 0;
}

static uint32_t macroblock_refusal(const struct a_case *c)
{
    static const size_t lengths[] = {384, 512, 768};
    int used[2];
    int i;

    if (macroblock_without_meaning(c)) {
        return 38;
    }
    if (c->column > LAST_CELL || c->row > LAST_CELL) {
        return 13;
    }
    if (c->buffers[RESULT].length != lengths[c->picture.chroma_format]) {
        return 18;
    }
    for (i = 0; i < 2; i++) {
        used[i] = direction_used(c, i) || (WRONG == UNUSED_IS_LOOKED_AT && c->references[i].present);
    }
    for (i = 0; i < 2; i++) {
        if (used[i] && !c->references[i].present) {
            return i == 0 ? 16 : 17;
        }
    }
    for (i = 0; i < 2; i++) {
        if (used[i] && other_geometry(c, i)) {
            return 15;
        }
        if (WRONG == DOMAIN_BEFORE_GEOMETRY && used[i] && outside_domain(c, i)) {
            return 14;
        }
    }
    for (i = 0; i < 2; i++) {
        if (used[i] && outside_domain(c, i)) {
            return 14;
        }
    }
    return 0;
}

/* Lines of a plane that has samples: all of them, or those of one field. */
struct lines {
    const uint8_t *samples;
    int64_t width;
    int64_t height; /* of the plane */
    int64_t count;
    int64_t first;
    int64_t step;
};

static int64_t clamped(int64_t place, int64_t last)
{
    return place < 0 ? 0 : place > last ? last : place;
}

/* parity is that of a field, or -1 for the frame */
static struct lines lines_of(const struct a_case *c, int i, int j, int parity)
{
    const struct sides *plane = &c->references[i].planes[j];
    struct lines lines = {
        c->buffers[plane_slot(i, j)].bytes, (int64_t)plane->width, (int64_t)plane->height, (int64_t)plane->height, 0, 1};

    if (parity >= 0 && !(parity == 1 && lines.count == 1)) {
        lines.count = (lines.count + 1 - parity) / 2;
        lines.first = parity;
        lines.step = 2;
    } else if (parity >= 0 && WRONG == EMPTY_FIELD_IS_ZERO) {
        lines.count = 0;
    }
    if (lines.width == 0) {
        lines.count = 0;
    }
    return lines;
}

static int sample_of(const struct lines *lines, int64_t x, int64_t line)
{
    int64_t row;

    if (lines->count == 0) {
        return 0;
    }
    row = lines->first + lines->step * clamped(line, lines->count - 1);
    if (WRONG == FRAME_ROW_CLAMPED && lines->step == 2) {
        row = clamped(lines->first + 2 * line, lines->height - 1);
    }
    return lines->samples[row * lines->width + clamped(x, lines->width - 1)];
}

/* One sample, by a vector in half samples. */
static int predicted(const struct lines *lines, int64_t x, int64_t line, int64_t horizontal, int64_t vertical)
{
    int right = horizontal % 2 != 0;
    int below = vertical % 2 != 0;
    int a;
    int b;
    int d;
    int e;

    x += WRONG == SPLIT_TRUNCATED ? horizontal / 2 : floored_half(horizontal);
    line += WRONG == SPLIT_TRUNCATED ? vertical / 2 : floored_half(vertical);
    a = sample_of(lines, x, line);
    b = right ? sample_of(lines, x + 1, line) : 0;
    d = below ? sample_of(lines, x, line + 1) : 0;
    e = right && below ? sample_of(lines, x + 1, line + 1) : 0;
    if (right && below) {
        return WRONG == FOUR_BY_PAIRS ? ((a + b + 1) / 2 + (d + e + 1) / 2 + 1) / 2 : (a + b + d + e + 2) / 4;
    }
    return right || below ? (a + b + d + (WRONG != MEAN_ROUNDED_DOWN)) / 2 : a;
}

static int64_t scaled(int64_t number, int64_t divisor)
{
    return WRONG == CHROMINANCE_FLOORED && divisor == 2 ? floored_half(number) : number / divisor;
}

/* A component of a macroblock by one direction; out is its first sample. */
static void expect_direction(const struct a_case *c, int i, int j, int columns, int rows, uint8_t *out)
{
    const struct motion *motion = &c->motion[one_of_two(c) && WRONG == OTHER_VECTOR_OF_TWO ? 1 - i : i];
    struct fozdrik_field_vector zero[2] = {{FOZDRIK_TOP, {0, 0}}, {FOZDRIK_BOTTOM, {0, 0}}};
    const struct fozdrik_field_vector *vectors = motion->present ? motion->vectors : zero;
    int64_t left = (int64_t)c->column * columns;
    int64_t top = (int64_t)c->row * rows;
    int x;
    int y;

    for (y = 0; y < rows; y++) {
        int field = c->call == FIELD ? y % 2 : 0;
        int parity = WRONG == OWN_PARITY_READ ? field : (int)vectors[field].reference_field;
        struct lines lines;

        if (WRONG == NO_MOTION_READS_TOP && !motion->present) {
            parity = 0;
        }
        lines = lines_of(c, i, j, c->call == FIELD ? parity : -1);
        for (x = 0; x < columns; x++) {
            *out++ = (uint8_t)predicted(
                &lines, left + x, c->call == FIELD ? (top + y) / 2 : top + y,
                scaled(vectors[field].vector.horizontal, 16 / columns),
                scaled(vectors[field].vector.vertical, 16 / rows));
        }
    }
}

static void expect_macroblock(const struct a_case *c, struct answer *right)
{
    uint8_t blocks[2][256];
    uint8_t *out = right->result;
    int i;
    int j;
    int k;

    right->number = macroblock_refusal(c);
    for (j = 0; j < 3 && right->number == 0; j++) {
        int columns = j > 0 && c->picture.chroma_format < FOZDRIK_YUV444 ? 8 : 16;
        int rows = j > 0 && c->picture.chroma_format < FOZDRIK_YUV422 ? 8 : 16;

        for (i = 0; i < 2; i++) {
            if (direction_used(c, i)) {
                expect_direction(c, i, j, columns, rows, blocks[i]);
            }
        }
        for (k = 0; k < columns * rows; k++) {
            int a = blocks[direction_used(c, 0) ? 0 : 1][k];
            int b = blocks[direction_used(c, 1) ? 1 : 0][k];

            *out++ = (uint8_t)((a + b + 1) / 2); /* of one direction, a itself */
        }
    }
}

enum place luminance_place(const struct a_case *c)
{
    int i = direction_used(c, 1);
    const struct fozdrik_field_vector *v = &c->motion[i].vectors[0];
    struct lines lines = lines_of(c, i, 0, c->call == FRAME ? -1 : c->motion[i].present ? (int)v->reference_field : 0);
    int64_t horizontal = c->motion[i].present ? v->vector.horizontal : 0;
    int64_t vertical = c->motion[i].present ? v->vector.vertical : 0;
    int64_t left = 16 * (int64_t)c->column + floored_half(horizontal);
    int64_t top = (c->call == FRAME ? 16 : 8) * (int64_t)c->row + floored_half(vertical);
    int64_t right = left + 15 + (horizontal % 2 != 0);
    int64_t bottom = top + (c->call == FRAME ? 15 : 7) + (vertical % 2 != 0);

    if (lines.count == 0) {
        return NO_SAMPLES;
    }
    if (right < 0 || bottom < 0 || left >= lines.width || top >= lines.count) {
        return OUTSIDE;
    }
    return left >= 0 && top >= 0 && right < lines.width && bottom < lines.count ? INSIDE : ACROSS_AN_EDGE;
}

void expect(const struct a_case *c, struct answer *right)
{
    right->number = 0;
    if (first_slot(c) == PREDICTORS && c->buffers[PREDICTORS].length == FOZDRIK_PREDICTORS_LENGTH) {
        memcpy(right->predictors, c->buffers[PREDICTORS].bytes, sizeof right->predictors);
    }
    switch (c->call) {
    case VECTOR:
        expect_vector(c, right);
        break;
    case UPDATE:
        expect_update(c, right);
        break;
    default:
        expect_macroblock(c, right);
        break;
    }
}
