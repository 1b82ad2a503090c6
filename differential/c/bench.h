/*
 * What the driver of the benchmark and the contestants in C say to one another. src/bin/bench/c.rs declares the same.
 */
#ifndef BENCH_H
#define BENCH_H

#include <stddef.h>
#include <stdint.h>

/* Samples row after row, without a gap. */
struct bench_plane {
    const uint8_t *samples;
    int32_t width;
    int32_t height;
};

/* In half samples. */
struct bench_vector {
    int32_t horizontal;
    int32_t vertical;
};

enum bench_lines {
    BENCH_TOP_FIELD = 0,
    BENCH_BOTTOM_FIELD = 1,
    BENCH_FRAME = 2
};

/* A block to predict. */
struct bench_block {
    uint32_t from; /* enum bench_lines */
    int32_t x;
    int32_t y;
    int32_t width;
    int32_t height;
    struct bench_vector vector;
};

enum bench_format {
    BENCH_420 = 0,
    BENCH_422 = 1,
    BENCH_444 = 2
};

enum {
    BENCH_COMPONENTS = 3, /* luminance, Cb, Cr */
    BENCH_DIRECTIONS = 2  /* forward, backward */
};

/* The two references, and the picture that is being decoded, whose planes have the same sides. */
struct bench_pictures {
    uint32_t format; /* enum bench_format */
    struct bench_plane references[BENCH_DIRECTIONS][BENCH_COMPONENTS];
    uint8_t *decoded[BENCH_COMPONENTS];
};

/* One direction of a macroblock. By frames the first vector is read alone; by fields one is for the lines of each of
 * the macroblock's fields, and beside it stands the field that it reads. */
struct bench_motion {
    uint32_t present;
    uint32_t fields[2];
    struct bench_vector vectors[2];
};

/* A macroblock to predict. One direction or both are present. */
struct bench_macroblock {
    uint32_t column;
    uint32_t row;
    uint32_t by_fields;
    struct bench_motion motions[BENCH_DIRECTIONS];
};

/* Of a vector, one component as the stream has it. */
struct bench_coded {
    int32_t code;
    uint32_t residual_present;
    uint32_t residual;
    uint32_t f_code;
};

/* A vector to reconstruct; numbers are those of include/fozdrik.h. */
struct bench_coded_vector {
    uint32_t r;
    uint32_t s;
    uint32_t mv_format;
    uint32_t picture_structure;
    struct bench_coded components[2];
};

/* What the predictors are updated by; numbers are those of include/fozdrik.h. */
struct bench_update {
    uint32_t picture_structure;
    uint32_t prediction_type_present;
    uint32_t prediction_type;
    uint32_t forward;
    uint32_t backward;
    uint32_t intra;
    uint32_t concealment;
};

/* Plain C. Blocks and macroblocks go to a packed buffer, row after row. */
void bench_plain_block(const struct bench_plane *plane, const struct bench_block *block, uint8_t *out);
void bench_plain_macroblock(
    const struct bench_pictures *pictures, const struct bench_macroblock *macroblock, uint8_t *out);
/* 0, or the number of the refusal. PMV[r][s][t] stands at 4r + 2s + t. */
uint32_t bench_plain_vector(int32_t predictors[8], const struct bench_coded_vector *coded, int32_t vector[2]);
/* The outcome's number, or 16 and that of the refusal. */
uint32_t bench_plain_update(int32_t predictors[8], const struct bench_update *update);

/*
 * libavcodec and libmpeg2: their half-sample functions, which check nothing and read inside the planes alone. A block
 * goes to lines that are as far apart as those it is read from; a macroblock to its place in the decoded picture.
 * Before the first call, init; after a batch of them, done, since the functions may use the MMX registers.
 */
void bench_avcodec_init(void);
void bench_avcodec_block(const struct bench_plane *plane, const struct bench_block *block, uint8_t *out);
void bench_avcodec_macroblock(const struct bench_pictures *pictures, const struct bench_macroblock *macroblock);
void bench_avcodec_done(void);

void bench_mpeg2_init(void);
void bench_mpeg2_block(const struct bench_plane *plane, const struct bench_block *block, uint8_t *out);
void bench_mpeg2_macroblock(const struct bench_pictures *pictures, const struct bench_macroblock *macroblock);
void bench_mpeg2_done(void);

#endif
