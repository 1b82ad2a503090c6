/*
 * What the answer to a case has to be, computed here from the words of docs/C-INTERFACE.md, sample by sample and
 * without regard to speed.
 */
#ifndef EXPECTED_H
#define EXPECTED_H

#include "case.h"

struct answer {
    uint32_t number;
    uint8_t predictors[FOZDRIK_PREDICTORS_LENGTH]; /* afterwards; where their length is right */
    uint8_t result[FOZDRIK_MACROBLOCK_444];        /* the vector, the outcome or the macroblock; where it is accepted */
};

void expect(const struct a_case *c, struct answer *right);

/* Where a macroblock reads its luminance, by the first vector of its last direction that is used. */
enum place { NO_SAMPLES, INSIDE, ACROSS_AN_EDGE, OUTSIDE, PLACE_KINDS };

enum place luminance_place(const struct a_case *c);

/* Whether a direction of a macroblock is used, where the presences of motion have a meaning. */
int direction_used(const struct a_case *c, int direction);

#endif
