/*
 * One case at a time: draws it from bytes, makes its call in up to four ways, and checks all that it gives.
 */
#ifndef FUZZ_H
#define FUZZ_H

#include "expected.h"

int LLVMFuzzerTestOneInput(const uint8_t *bytes, size_t length);

enum { LAST_NUMBER = 38 };

/* Whether a call can answer with this number. */
int possible(enum call call, uint32_t number);

/* How many cases were met, and the calls that they made. */
struct met {
    uint64_t calls;
    uint64_t checksum; /* of all answers and buffers, so that two builds can be compared */
    uint64_t answers[CALLS][LAST_NUMBER + 1];
    uint64_t formats[CALLS][3];       /* of accepted macroblocks, as what follows */
    uint64_t directions[CALLS][2][2]; /* without or with forward motion, and backward motion */
    uint64_t places[CALLS][PLACE_KINDS];
};

extern struct met met;

#endif
