/*
 * The contestant libavcodec: its half-sample functions, as ff_hpeldsp_init chooses them for the processor. The shared
 * library hides that function; the archive has it.
 */
#include <stddef.h>

typedef ptrdiff_t stride_type;

#include "by_table.h"

/* What ff_hpeldsp_init fills: by widths of 16, 8, 4 and 2, and by patterns. */
struct hpel_functions {
    half_sample_function *put[4][PATTERNS];
    half_sample_function *average[4][PATTERNS];
    /* with means that are rounded down, which MPEG-2 has not */
    half_sample_function *put_truncated[4][PATTERNS];
    half_sample_function *average_truncated[PATTERNS];
};

void ff_hpeldsp_init(struct hpel_functions *functions, int flags);

static struct tables tables;

void bench_avcodec_init(void)
{
    struct hpel_functions functions;
    int width;
    int pattern;

    ff_hpeldsp_init(&functions, 0);
    for (width = 0; width < WIDTHS; width++) {
        for (pattern = 0; pattern < PATTERNS; pattern++) {
            tables.put[width][pattern] = functions.put[width][pattern];
            tables.average[width][pattern] = functions.average[width][pattern];
        }
    }
}

void bench_avcodec_block(const struct bench_plane *plane, const struct bench_block *block, uint8_t *out)
{
    predict_block(&tables, plane, block, out);
}

void bench_avcodec_macroblock(const struct bench_pictures *pictures, const struct bench_macroblock *macroblock)
{
    predict_macroblock(&tables, pictures, macroblock);
}

void bench_avcodec_done(void)
{
    leave_mmx();
}
