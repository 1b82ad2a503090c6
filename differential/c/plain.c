/*
 * The contestant in plain C: predictions, vectors and updates by clause 7.6 of ISO/IEC 13818-2, without intrinsics, for
 * the compiler to make fast. Of its arguments it checks what a stream can have wrong, and trusts the rest.
 */
#include <string.h>

#include "bench.h"
#include "fozdrik.h"

/* ---- predictions: 7.6.4 */

enum {
    LARGEST_READ = 17, /* columns or lines of a block of 16 with a half */
    LARGEST_MACROBLOCK = 768
};

/* The lines of a frame, or of one of its fields. */
struct lines {
    const uint8_t *samples;
    ptrdiff_t stride;
    int32_t width;
    int32_t count;
};

static struct lines frame_lines(const struct bench_plane *plane)
{
    struct lines lines = {plane->samples, plane->width, plane->width, plane->height};

    return lines;
}

static struct lines field_lines(const struct bench_plane *plane, uint32_t parity)
{
    struct lines lines = {
        plane->samples + (ptrdiff_t)parity * plane->width, 2 * (ptrdiff_t)plane->width, plane->width,
        (plane->height + 1 - (int32_t)parity) / 2};

    return lines;
}

static inline uint8_t mean_of_two(int a, int b)
{
    return (uint8_t)((a + b + 1) >> 1);
}

static inline uint8_t mean_of_four(int a, int b, int c, int d)
{
    return (uint8_t)((a + b + c + d + 2) >> 2);
}

/* A loop for each kind of mean. How far a second sample is away is a number that the compiler does not know: told that
 * it is 1, it takes a sample of one turn over into the next, and no longer forms several in one instruction. */
#define FORM(sample)                                    \
    for (y = 0; y < height; y++) {                      \
        const uint8_t *line = from + y * stride;        \
        uint8_t *out_line = out + y * out_stride;       \
                                                        \
        for (x = 0; x < width; x++) {                   \
            out_line[x] = (sample);                     \
        }                                               \
    }

static inline void form(
    const uint8_t *restrict from, ptrdiff_t stride, int half_x, int half_y, uint8_t *restrict out,
    ptrdiff_t out_stride, int32_t width, int32_t height)
{
    ptrdiff_t right = half_x;
    ptrdiff_t other = half_x ? 1 : stride;
    int32_t x;
    int32_t y;

    switch (half_x + half_y) {
    case 0:
        FORM(line[x])
        break;
    case 1:
        FORM(mean_of_two(line[x], line[x + other]))
        break;
    default:
        FORM(mean_of_four(line[x], line[x + right], line[x + stride], line[x + stride + right]))
        break;
    }
}

static inline int32_t clamped(int32_t place, int32_t last)
{
    return place < 0 ? 0 : place > last ? last : place;
}

/* Where some of what a block reads lies outside: a copy, in which the nearest sample stands there. */
static void copy_clamped(
    const struct lines *from, int32_t left, int32_t top, int32_t width, int32_t height,
    uint8_t copy[][LARGEST_READ])
{
    int32_t x;
    int32_t y;

    for (y = 0; y < height; y++) {
        const uint8_t *line = from->samples + clamped(top + y, from->count - 1) * from->stride;

        for (x = 0; x < width; x++) {
            copy[y][x] = line[clamped(left + x, from->width - 1)];
        }
    }
}

static void predict(
    const struct lines *from, int32_t x, int32_t y, int32_t width, int32_t height, struct bench_vector vector,
    uint8_t *out, ptrdiff_t out_stride)
{
    int half_x = vector.horizontal & 1;
    int half_y = vector.vertical & 1;
    /* floored, also where it is negative */
    int32_t left = x + (vector.horizontal >> 1);
    int32_t top = y + (vector.vertical >> 1);
    int32_t columns = width + half_x;
    int32_t lines = height + half_y;
    const uint8_t *samples;
    ptrdiff_t stride;
    uint8_t copy[LARGEST_READ][LARGEST_READ];

    if (left < 0 || top < 0 || left + columns > from->width || top + lines > from->count) {
        copy_clamped(from, left, top, columns, lines, copy);
        samples = copy[0];
        stride = LARGEST_READ;
    } else {
        samples = from->samples + top * from->stride + left;
        stride = from->stride;
    }
    /* The widths of macroblocks as constants, for which the compiler needs no loop. */
    if (width == 16) {
        form(samples, stride, half_x, half_y, out, out_stride, 16, height);
    } else if (width == 8) {
        form(samples, stride, half_x, half_y, out, out_stride, 8, height);
    } else {
        form(samples, stride, half_x, half_y, out, out_stride, width, height);
    }
}

void bench_plain_block(const struct bench_plane *plane, const struct bench_block *block, uint8_t *out)
{
    struct lines from = block->from == BENCH_FRAME ? frame_lines(plane) : field_lines(plane, block->from);

    predict(&from, block->x, block->y, block->width, block->height, block->vector, out, block->width);
}

/* One component of a macroblock: what it has of the plane, and whether that is half as wide or high as luminance. */
struct component {
    int32_t width;
    int32_t height;
    int halved_x;
    int halved_y;
};

static struct component component_of(uint32_t format, int index)
{
    int halved_x = index > 0 && format != BENCH_444;
    int halved_y = index > 0 && format == BENCH_420;
    struct component component = {halved_x ? 8 : 16, halved_y ? 8 : 16, halved_x, halved_y};

    return component;
}

/* 7.6.3.7: truncated. */
static struct bench_vector scaled(struct bench_vector vector, struct component component)
{
    if (component.halved_x) {
        vector.horizontal /= 2;
    }
    if (component.halved_y) {
        vector.vertical /= 2;
    }
    return vector;
}

static void predict_direction(
    const struct bench_plane *planes, uint32_t format, const struct bench_macroblock *macroblock,
    const struct bench_motion *motion, uint8_t *out)
{
    int index;

    for (index = 0; index < BENCH_COMPONENTS; index++) {
        const struct bench_plane *plane = &planes[index];
        struct component component = component_of(format, index);
        int32_t width = component.width;
        int32_t height = component.height;
        int32_t x = (int32_t)macroblock->column * width;
        int32_t y = (int32_t)macroblock->row * height;

        if (macroblock->by_fields) {
            int r;

            for (r = 0; r < 2; r++) {
                struct lines field = field_lines(plane, motion->fields[r]);

                predict(
                    &field, x, y / 2, width, height / 2, scaled(motion->vectors[r], component), out + r * width,
                    2 * width);
            }
        } else {
            struct lines frame = frame_lines(plane);

            predict(&frame, x, y, width, height, scaled(motion->vectors[0], component), out, width);
        }
        out += width * height;
    }
}

/* 7.6.7.1 */
static void average(uint8_t *restrict out, const uint8_t *restrict other, size_t length)
{
    size_t i;

    for (i = 0; i < length; i++) {
        out[i] = mean_of_two(out[i], other[i]);
    }
}

void bench_plain_macroblock(
    const struct bench_pictures *pictures, const struct bench_macroblock *macroblock, uint8_t *out)
{
    static const size_t lengths[] = {384, 512, LARGEST_MACROBLOCK};
    uint32_t format = pictures->format;
    const struct bench_motion *forward = &macroblock->motions[0];
    const struct bench_motion *backward = &macroblock->motions[1];

    if (forward->present && backward->present) {
        uint8_t other[LARGEST_MACROBLOCK];

        predict_direction(pictures->references[0], format, macroblock, forward, out);
        predict_direction(pictures->references[1], format, macroblock, backward, other);
        average(out, other, lengths[format]);
    } else if (forward->present) {
        predict_direction(pictures->references[0], format, macroblock, forward, out);
    } else {
        predict_direction(pictures->references[1], format, macroblock, backward, out);
    }
}

/* ---- vectors: 7.6.3.1 */

static uint32_t reconstruct_component(
    const struct bench_coded *coded, int halved, int32_t *predictor, int32_t *component)
{
    int32_t code = coded->code;
    int32_t f;
    int32_t low;
    int32_t high;
    int32_t delta;
    int32_t sum;

    if (coded->f_code < 1 || coded->f_code > 9) {
        return FOZDRIK_F_CODE_OUTSIDE;
    }
    if (code < -16 || code > 16) {
        return FOZDRIK_CODE_OUTSIDE;
    }
    f = 1 << (coded->f_code - 1);
    if (f == 1 || code == 0) {
        if (coded->residual_present) {
            return FOZDRIK_RESIDUAL_FORBIDDEN;
        }
        delta = code;
    } else {
        if (!coded->residual_present) {
            return FOZDRIK_RESIDUAL_MISSING;
        }
        delta = ((code < 0 ? -code : code) - 1) * f + (int32_t)coded->residual + 1;
        if (code < 0) {
            delta = -delta;
        }
    }
    low = -16 * f;
    high = 16 * f - 1;
    if (delta < low || delta > high) {
        return FOZDRIK_DELTA_OUTSIDE;
    }
    sum = (halved ? *predictor >> 1 : *predictor) + delta;
    if (sum < low) {
        sum += 32 * f;
    }
    if (sum > high) {
        sum -= 32 * f;
    }
    if (sum < low || sum > high) {
        return FOZDRIK_VECTOR_OUTSIDE;
    }
    *predictor = halved ? 2 * sum : sum;
    *component = sum;
    return FOZDRIK_ACCEPTED;
}

uint32_t bench_plain_vector(int32_t predictors[8], const struct bench_coded_vector *coded, int32_t vector[2])
{
    int32_t *pair = predictors + 4 * coded->r + 2 * coded->s;
    int halved = coded->mv_format == FOZDRIK_FIELD_VECTOR && coded->picture_structure == FOZDRIK_FRAME_PICTURE;
    int32_t horizontal;
    int32_t vertical;
    uint32_t refusal = reconstruct_component(&coded->components[0], 0, &pair[0], &horizontal);

    if (refusal == FOZDRIK_ACCEPTED) {
        refusal = reconstruct_component(&coded->components[1], halved, &pair[1], &vertical);
    }
    if (refusal == FOZDRIK_ACCEPTED) {
        vector[0] = horizontal;
        vector[1] = vertical;
    }
    return refusal;
}

/* ---- updates: 7.6.3.3, Tables 7-10 and 7-11 */

static void reset(int32_t predictors[8])
{
    memset(predictors, 0, 8 * sizeof *predictors);
}

static void copy_first_to_second(int32_t predictors[8], int direction)
{
    memcpy(predictors + 4 + 2 * direction, predictors + 2 * direction, 2 * sizeof *predictors);
}

static uint32_t refused(uint32_t refusal)
{
    return 16 + refusal;
}

uint32_t bench_plain_update(int32_t predictors[8], const struct bench_update *update)
{
    int frame_picture = update->picture_structure == FOZDRIK_FRAME_PICTURE;

    if (update->intra) {
        if (update->forward || update->backward) {
            return refused(FOZDRIK_INTRA_WITH_MOTION);
        }
        if (update->concealment) {
            copy_first_to_second(predictors, FOZDRIK_FORWARD);
            return FOZDRIK_INTRA_CONCEALMENT_COPY_FORWARD_FIRST;
        }
        reset(predictors);
        return FOZDRIK_INTRA_RESET_ALL;
    }
    if (!update->prediction_type_present) {
        return refused(FOZDRIK_TYPE_MISSING);
    }
    if (update->prediction_type == FOZDRIK_FRAME_BASED && !frame_picture) {
        return refused(FOZDRIK_FRAME_BASED_IN_FIELD);
    }
    if (update->prediction_type == FOZDRIK_SIXTEEN_BY_EIGHT && frame_picture) {
        return refused(FOZDRIK_SIXTEEN_BY_EIGHT_IN_FRAME);
    }
    if (update->prediction_type == FOZDRIK_DUAL_PRIME) {
        if (!update->forward || update->backward) {
            return refused(FOZDRIK_DUAL_PRIME_FLAGS);
        }
        copy_first_to_second(predictors, FOZDRIK_FORWARD);
        return FOZDRIK_DUAL_PRIME_COPY_FORWARD;
    }
    /* Field-based in frame pictures, and 16 x 8: each vector has stored its own predictor. */
    if (update->prediction_type == (frame_picture ? FOZDRIK_FIELD_BASED : FOZDRIK_SIXTEEN_BY_EIGHT)) {
        return update->forward || update->backward ? FOZDRIK_NO_UPDATE : refused(FOZDRIK_NONE_ROW_FLAGS);
    }
    if (!update->forward && !update->backward) {
        reset(predictors);
        return FOZDRIK_NON_INTRA_ZERO_MOTION_RESET;
    }
    if (update->forward) {
        copy_first_to_second(predictors, FOZDRIK_FORWARD);
    }
    if (update->backward) {
        copy_first_to_second(predictors, FOZDRIK_BACKWARD);
    }
    return update->forward && update->backward ? FOZDRIK_NON_INTRA_COPY_BOTH
         : update->forward                     ? FOZDRIK_NON_INTRA_COPY_FORWARD
                                               : FOZDRIK_NON_INTRA_COPY_BACKWARD;
}
