/*
 * Prediction by tables of half-sample functions, as decoders do it: what libavcodec and libmpeg2 have in common. The
 * includer has said what type a stride has there, as stride_type, and defines the tables.
 */
#include "bench.h"

/* Forms so many rows, of a width that the function has, from lines that are as far apart as those it writes. */
typedef void half_sample_function(uint8_t *out, const uint8_t *from, stride_type stride, int rows);

enum {
    WIDTHS = 2,  /* 16, 8 */
    PATTERNS = 4 /* none, horizontal, vertical, both */
};

struct tables {
    half_sample_function *put[WIDTHS][PATTERNS];
    half_sample_function *average[WIDTHS][PATTERNS];
};

static unsigned pattern_of(struct bench_vector vector)
{
    return ((unsigned)vector.horizontal & 1u) + 2u * ((unsigned)vector.vertical & 1u);
}

/* Where a block of these lines reads, counted from the first of them. */
static ptrdiff_t place_of(int32_t x, int32_t y, struct bench_vector vector, ptrdiff_t stride)
{
    return (y + (vector.vertical >> 1)) * stride + x + (vector.horizontal >> 1);
}

static void predict_block(
    const struct tables *tables, const struct bench_plane *plane, const struct bench_block *block, uint8_t *out)
{
    const uint8_t *lines = plane->samples;
    ptrdiff_t stride = plane->width;

    if (block->from != BENCH_FRAME) {
        lines += (ptrdiff_t)block->from * stride;
        stride *= 2;
    }
    tables->put[block->width == 16 ? 0 : 1][pattern_of(block->vector)](
        out, lines + place_of(block->x, block->y, block->vector, stride), (stride_type)stride, block->height);
}

/* Of a macroblock, the lines of the frame or of one field: where they are read, where they go, and by which vector. */
struct part {
    ptrdiff_t lines; /* how far apart they are, in lines of the frame */
    ptrdiff_t from;  /* the first line of the reference that belongs to them */
    ptrdiff_t to;    /* the same of the decoded picture */
    struct bench_vector vector;
};

static void predict_part(
    half_sample_function *const functions[WIDTHS][PATTERNS], const struct bench_pictures *pictures,
    const struct bench_plane *planes, const struct bench_macroblock *macroblock, struct part part)
{
    int halved_x = pictures->format != BENCH_444;
    int halved_y = pictures->format == BENCH_420;
    int32_t rows = 16 / (int32_t)part.lines;
    int32_t chroma_width = halved_x ? 8 : 16;
    int32_t chroma_rows = halved_y ? rows / 2 : rows;
    int32_t x = (int32_t)macroblock->column * 16;
    int32_t y = (int32_t)macroblock->row * rows;
    int32_t chroma_x = (int32_t)macroblock->column * chroma_width;
    int32_t chroma_y = (int32_t)macroblock->row * chroma_rows;
    ptrdiff_t width = planes[0].width;
    ptrdiff_t chroma_plane_width = planes[1].width;
    ptrdiff_t stride = part.lines * width;
    ptrdiff_t chroma_stride = part.lines * chroma_plane_width;
    struct bench_vector vector = part.vector;
    struct bench_vector chroma = {
        halved_x ? vector.horizontal / 2 : vector.horizontal, halved_y ? vector.vertical / 2 : vector.vertical};
    half_sample_function *luma_function = functions[0][pattern_of(vector)];
    half_sample_function *chroma_function = functions[halved_x][pattern_of(chroma)];
    ptrdiff_t from = part.from * width + place_of(x, y, vector, stride);
    ptrdiff_t to = part.to * width + y * stride + x;
    ptrdiff_t chroma_from = part.from * chroma_plane_width + place_of(chroma_x, chroma_y, chroma, chroma_stride);
    ptrdiff_t chroma_to = part.to * chroma_plane_width + chroma_y * chroma_stride + chroma_x;

    luma_function(pictures->decoded[0] + to, planes[0].samples + from, (stride_type)stride, rows);
    chroma_function(
        pictures->decoded[1] + chroma_to, planes[1].samples + chroma_from, (stride_type)chroma_stride, chroma_rows);
    chroma_function(
        pictures->decoded[2] + chroma_to, planes[2].samples + chroma_from, (stride_type)chroma_stride, chroma_rows);
}

static void predict_macroblock(
    const struct tables *tables, const struct bench_pictures *pictures, const struct bench_macroblock *macroblock)
{
    half_sample_function *const(*functions)[PATTERNS] = tables->put;
    int direction;

    for (direction = 0; direction < BENCH_DIRECTIONS; direction++) {
        const struct bench_plane *planes = pictures->references[direction];
        const struct bench_motion *motion = &macroblock->motions[direction];

        if (!motion->present) {
            continue;
        }
        if (macroblock->by_fields) {
            struct part top = {2, motion->fields[0], 0, motion->vectors[0]};
            struct part bottom = {2, motion->fields[1], 1, motion->vectors[1]};

            predict_part(functions, pictures, planes, macroblock, top);
            predict_part(functions, pictures, planes, macroblock, bottom);
        } else {
            struct part frame = {1, 0, 0, motion->vectors[0]};

            predict_part(functions, pictures, planes, macroblock, frame);
        }
        functions = tables->average;
    }
}

/* Makes the registers that MMX shares with floating point usable for the latter again. */
static void leave_mmx(void)
{
#ifdef __MMX__
    __builtin_ia32_emms();
#endif
}
