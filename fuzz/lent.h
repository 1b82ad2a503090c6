/*
 * Buffers that are lent to a call, placed so that a read or a write outside of them does not go unseen.
 */
#ifndef LENT_H
#define LENT_H

#include "case.h"

/* Where a buffer lies. A page that nobody may touch ends the program at once, whoever touches it. */
enum placement {
    BEFORE_A_GUARD, /* its last byte is the last one before such a page; without bytes it is null */
    BEHIND_A_GUARD, /* its first byte is the first one behind such a page; without bytes it is in one */
    ALLOCATED       /* it is an allocation of its own, at any address, for valgrind to watch */
};

/* Lends all buffers of a case. The planes before and behind guards are memory that can only be read. */
void lend(const struct a_case *c, enum placement placement, uint8_t *lent[SLOTS]);

/* Whether a buffer has these bytes now; of a vast one, whether it is zero at both ends. */
int holds(const struct a_case *c, uint8_t *const lent[SLOTS], size_t slot, const uint8_t *bytes);

/* Takes them back; says whether what lies before an allocated one is as it was. */
int take_back(const struct a_case *c, enum placement placement, uint8_t *const lent[SLOTS]);

#endif
