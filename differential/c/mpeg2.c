/*
 * The contestant libmpeg2: its half-sample functions, as it chooses them for the processor. The shared library hides
 * their table; the archive has it.
 */
typedef int stride_type;

#include "by_table.h"

/* To mpeg2_accel: whatever the processor has, as libmpeg2 finds it. */
static const uint32_t detect = 0x80000000u;

/* For a width of 16, then of 8. */
extern struct tables mpeg2_mc;

uint32_t mpeg2_accel(uint32_t accelerations);

void bench_mpeg2_init(void)
{
    mpeg2_accel(detect);
}

void bench_mpeg2_block(const struct bench_plane *plane, const struct bench_block *block, uint8_t *out)
{
    predict_block(&mpeg2_mc, plane, block, out);
}

void bench_mpeg2_macroblock(const struct bench_pictures *pictures, const struct bench_macroblock *macroblock)
{
    predict_macroblock(&mpeg2_mc, pictures, macroblock);
}

void bench_mpeg2_done(void)
{
    leave_mmx();
}
