/*
 * What is made wrong on purpose, by -DWRONG=N, so that it is seen whether the fuzzer notices: `make fuzz-check`.
 */
#ifndef WRONG_H
#define WRONG_H

#include "lent.h"

#ifndef WRONG
#define WRONG 0
#endif

enum wrong {
    /* what a wrong library would do; wrong.c does it after the call */
    ACCEPTED_IS_REFUSED = 1,
    NUMBER_OF_ANOTHER_CALL,
    NEIGHBOURING_REFUSAL,
    CELL_BEFORE_MEANING,
    ABSENT_FORMAT_IS_READ,
    NULL_IS_REFUSED,
    LENGTH_IN_32_BITS,
    PRODUCT_IN_64_BITS,
    RESULT_OFF_BY_ONE,
    REFUSAL_WRITES_RESULT,
    REFUSAL_WRITES_PREDICTORS,
    ANSWER_DEPENDS_ON_THE_LAST,
    PLANE_IS_CHANGED,
    PLANE_IS_WRITTEN_UNCHANGED,
    READ_BEHIND_A_PLANE,
    READ_BEFORE_A_PLANE,
    WRITTEN_BEHIND_THE_RESULT,
    WRITTEN_BEFORE_THE_RESULT,
    DOES_NOT_RETURN,
    /* a fault of the header's functions, made in fuzz.c */
    CB_AND_CR_EXCHANGED,
    /* slips that lie near, made in expected.c: the library then differs from it, if a case gets there */
    SPLIT_TRUNCATED,
    CHROMINANCE_FLOORED,
    FOUR_BY_PAIRS,
    MEAN_ROUNDED_DOWN,
    FRAME_ROW_CLAMPED,
    OWN_PARITY_READ,
    EMPTY_FIELD_IS_ZERO,
    NO_MOTION_READS_TOP,
    DOMAIN_BEFORE_GEOMETRY,
    UNUSED_IS_LOOKED_AT,
    ONE_OF_TWO_REFUSED,
    OTHER_VECTOR_OF_TWO,
    PREDICTOR_RESTORED,
    PRIOR_TRUNCATED,
    REDUCED_MODULO,
    INTRA_TYPE_UNREAD,
    /* noticed by valgrind alone; the last */
    READ_BEHIND_AN_ALLOCATION
};

/* Does to the buffers what is to be wrong, and gives the number that the call would have answered. */
uint32_t made_wrong(const struct a_case *c, uint8_t *const at[SLOTS], enum placement placement, uint32_t number);

#endif
