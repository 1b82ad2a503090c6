/*
 * A fixed set of calls, whose instructions make bench-counts counts, by kinds. For each kind it prints a line when it
 * has made them: how many they were, a tab, and what they were. All inputs are written here, so that the counts
 * change with the library and with nothing else. Only what runs below the entry points is counted.
 */
#include <stdio.h>
#include <stdlib.h>

#include "fozdrik.h"

/* In memory.s. */
void next_kind(void);

/* The block predictor of the benchmark: from is 0 for the top field, 1 for the bottom field, 2 for the frame. */
uint32_t fozdrik_bench_block(
    uint32_t from, const uint8_t *samples, size_t samples_len, size_t width, size_t height, int32_t x, int32_t y,
    size_t block_width, size_t block_height, int32_t horizontal, int32_t vertical, uint8_t *out, size_t out_len);

enum {
    CELLS = 6, /* macroblocks or blocks along each side of what is read */
    WIDTH = 16 * CELLS,
    HEIGHT = 16 * CELLS,
    PATTERNS = 4,
    PLACES = 2
};

/* Where a macroblock or a block stands, and the whole part of its vectors, in samples. */
struct read {
    size_t column;
    size_t row;
    int32_t right;
    int32_t down;
};

/* Odd and even, so that each pattern of luminance comes with each of chrominance. */
static const struct read inside[] = {{2, 2, -6, 4}, {2, 2, 7, -6}, {2, 2, -6, 5}, {2, 2, 7, -5}};

/* Past each edge and corner. */
static const struct read edges[] = {
    {0, 0, -6, -6}, {2, 0, 0, -6}, {5, 0, 6, -6}, {0, 2, -6, 0},
    {5, 2, 6, 0},   {0, 5, -6, 6}, {2, 5, 0, 6},  {5, 5, 6, 6}};

struct place {
    const char *name;
    const struct read *reads;
    size_t count;
};

static const struct place places[PLACES] = {
    {"inside", inside, sizeof inside / sizeof *inside}, {"at the edges", edges, sizeof edges / sizeof *edges}};

static struct fozdrik_vector vector_of(const struct read *read, unsigned pattern)
{
    struct fozdrik_vector vector;

    vector.horizontal = 2 * read->right + (int32_t)(pattern & 1u);
    vector.vertical = 2 * read->down + (int32_t)(pattern >> 1 & 1u);
    return vector;
}

/* Sees that a call was answered as it should be. */
static void expect(int right, const char *what)
{
    if (!right) {
        fprintf(stderr, "not the answer that was expected: %s\n", what);
        exit(1);
    }
}

/* ---- macroblocks */

static uint8_t samples[2][3][WIDTH * HEIGHT];

static struct fozdrik_plane plane_of(const uint8_t *of, size_t width, size_t height)
{
    struct fozdrik_plane plane;

    plane.samples = of;
    plane.length = width * height;
    plane.width = width;
    plane.height = height;
    return plane;
}

static struct fozdrik_frame frame_of(uint8_t of[3][WIDTH * HEIGHT], uint32_t format)
{
    size_t chroma_width = format == FOZDRIK_YUV444 ? WIDTH : WIDTH / 2;
    size_t chroma_height = format == FOZDRIK_YUV420 ? HEIGHT / 2 : HEIGHT;
    struct fozdrik_frame frame;

    frame.geometry.width = WIDTH;
    frame.geometry.height = HEIGHT;
    frame.geometry.chroma_format = format;
    frame.y = plane_of(of[0], WIDTH, HEIGHT);
    frame.cb = plane_of(of[1], chroma_width, chroma_height);
    frame.cr = plane_of(of[2], chroma_width, chroma_height);
    return frame;
}

static struct fozdrik_frame_motion frame_motion(const struct read *read, unsigned pattern, uint32_t both)
{
    struct fozdrik_frame_motion motion;

    motion.forward_present = FOZDRIK_YES;
    motion.forward = vector_of(read, pattern);
    motion.backward_present = both;
    motion.backward = vector_of(read, pattern + 1);
    return motion;
}

static struct fozdrik_field_vector_pair field_pair(const struct read *read, unsigned pattern)
{
    struct fozdrik_field_vector_pair pair;

    pair.top.reference_field = pattern & 1u;
    pair.top.vector = vector_of(read, pattern);
    pair.bottom.reference_field = pattern >> 1 & 1u;
    pair.bottom.vector = vector_of(read, pattern + 1);
    return pair;
}

static struct fozdrik_field_motion field_motion(const struct read *read, unsigned pattern, uint32_t both)
{
    struct fozdrik_field_motion motion;

    motion.forward_present = FOZDRIK_YES;
    motion.forward = field_pair(read, pattern);
    motion.backward_present = both;
    motion.backward = field_pair(read, pattern + 2);
    return motion;
}

static void predict_macroblocks(uint32_t format, int by_fields, uint32_t both, const struct place *place)
{
    static const char *const format_names[] = {"4:2:0", "4:2:2", "4:4:4"};
    struct fozdrik_frame forward = frame_of(samples[0], format);
    struct fozdrik_frame backward = frame_of(samples[1], format);
    uint8_t out[FOZDRIK_MACROBLOCK_444];
    size_t length = fozdrik_macroblock_length(format);
    size_t i;
    unsigned pattern;

    next_kind();
    for (i = 0; i < place->count; i++) {
        const struct read *read = &place->reads[i];

        for (pattern = 0; pattern < PATTERNS; pattern++) {
            struct fozdrik_frame_motion by_frame = frame_motion(read, pattern, both);
            struct fozdrik_field_motion by_field = field_motion(read, pattern, both);
            uint32_t refusal;

            if (by_fields) {
                refusal = fozdrik_predict_field_based(
                    &forward.geometry, read->column, read->row, &forward, &backward, &by_field, out, length);
            } else {
                refusal = fozdrik_predict_frame_based(
                    &forward.geometry, read->column, read->row, &forward, &backward, &by_frame, out, length);
            }
            expect(refusal == FOZDRIK_ACCEPTED, "a macroblock");
        }
    }
    printf(
        "%u\tmacroblock, %s, %s, %s, %s\n", (unsigned)place->count * PATTERNS, format_names[format],
        by_fields ? "field" : "frame", both ? "two directions" : "one direction", place->name);
}

/* ---- blocks */

static void predict_blocks(
    int by_fields, size_t block_width, size_t block_height, const struct place *place, unsigned pattern)
{
    static const char *const pattern_names[PATTERNS] = {
        "no half", "half horizontally", "half vertically", "both halves"};
    size_t lines = CELLS * block_height;
    size_t width = CELLS * block_width;
    size_t height = by_fields ? 2 * lines : lines;
    uint8_t out[256];
    size_t i;

    next_kind();
    for (i = 0; i < place->count; i++) {
        const struct read *read = &place->reads[i];
        struct fozdrik_vector vector = vector_of(read, pattern);
        uint32_t refusal = fozdrik_bench_block(
            by_fields ? (uint32_t)(i & 1u) : 2u, samples[0][0], width * height, width, height,
            (int32_t)(read->column * block_width), (int32_t)(read->row * block_height), block_width, block_height,
            vector.horizontal, vector.vertical, out, block_width * block_height);

        expect(refusal == FOZDRIK_ACCEPTED, "a block");
    }
    printf(
        "%u\tblock, %s, %u x %u, %s, %s\n", (unsigned)place->count, by_fields ? "field" : "frame", (unsigned)block_width,
        (unsigned)block_height, place->name, pattern_names[pattern]);
}

/* ---- vectors */

/* Codes -15 to 15, horizontally up and vertically down, for each r and s, on the predictors that the one before left. */
static void reconstruct_vectors(
    const char *name, uint8_t f_code_horiz, uint8_t f_code_vert, uint32_t mv_format, uint32_t wrong)
{
    struct fozdrik_vector_context context;
    struct fozdrik_coded_vector coded;
    struct fozdrik_pmv pmv;
    struct fozdrik_vector vector;
    unsigned calls = 0;
    unsigned which;
    int32_t code;

    context.mv_format = mv_format;
    context.picture_structure = FOZDRIK_FRAME_PICTURE;
    context.f_code_horiz = f_code_horiz;
    context.f_code_vert = f_code_vert;
    fozdrik_pmv_reset(&pmv);
    next_kind();
    for (which = 0; which < 4; which++) {
        context.r = which >> 1;
        context.s = which & 1u;
        for (code = -15; code <= 15; code++) {
            uint32_t refusal;

            coded.motion_code_horiz = code;
            coded.motion_code_vert = -code;
            coded.motion_residual_horiz_present = f_code_horiz > 1 && code != 0;
            coded.motion_residual_vert_present = (f_code_vert > 1 && code != 0) ^ wrong;
            coded.motion_residual_horiz = (uint8_t)(calls % (1u << (f_code_horiz - 1)));
            coded.motion_residual_vert = (uint8_t)(calls % (1u << (f_code_vert - 1)));
            refusal = fozdrik_reconstruct_vector(&context, &coded, &pmv, &vector);
            expect((refusal == FOZDRIK_ACCEPTED) == !wrong, name);
            calls++;
        }
    }
    printf("%u\tvector, %s\n", calls, name);
}

/* ---- updates */

enum {
    NONE = 4 /* in place of a prediction type */
};

/* What differs between updates; the flags are 1 or 0. */
struct update {
    uint32_t structure;
    uint32_t type;
    uint32_t forward;
    uint32_t backward;
    uint32_t intra;
    uint32_t concealment;
};

static const struct update of_frame_pictures[] = {
    {FOZDRIK_FRAME_PICTURE, NONE, 0, 0, 1, 0},
    {FOZDRIK_FRAME_PICTURE, NONE, 0, 0, 1, 1},
    {FOZDRIK_FRAME_PICTURE, FOZDRIK_FRAME_BASED, 0, 0, 0, 0},
    {FOZDRIK_FRAME_PICTURE, FOZDRIK_FRAME_BASED, 1, 0, 0, 0},
    {FOZDRIK_FRAME_PICTURE, FOZDRIK_FRAME_BASED, 0, 1, 0, 0},
    {FOZDRIK_FRAME_PICTURE, FOZDRIK_FRAME_BASED, 1, 1, 0, 0},
    {FOZDRIK_FRAME_PICTURE, FOZDRIK_FIELD_BASED, 1, 0, 0, 0},
    {FOZDRIK_FRAME_PICTURE, FOZDRIK_FIELD_BASED, 0, 1, 0, 0},
    {FOZDRIK_FRAME_PICTURE, FOZDRIK_FIELD_BASED, 1, 1, 0, 0},
    {FOZDRIK_FRAME_PICTURE, FOZDRIK_DUAL_PRIME, 1, 0, 0, 0}};

static const struct update of_field_pictures[] = {
    {FOZDRIK_TOP_FIELD_PICTURE, NONE, 0, 0, 1, 0},
    {FOZDRIK_BOTTOM_FIELD_PICTURE, NONE, 0, 0, 1, 1},
    {FOZDRIK_TOP_FIELD_PICTURE, FOZDRIK_FIELD_BASED, 0, 0, 0, 0},
    {FOZDRIK_BOTTOM_FIELD_PICTURE, FOZDRIK_FIELD_BASED, 1, 0, 0, 0},
    {FOZDRIK_TOP_FIELD_PICTURE, FOZDRIK_FIELD_BASED, 0, 1, 0, 0},
    {FOZDRIK_BOTTOM_FIELD_PICTURE, FOZDRIK_FIELD_BASED, 1, 1, 0, 0},
    {FOZDRIK_TOP_FIELD_PICTURE, FOZDRIK_SIXTEEN_BY_EIGHT, 1, 0, 0, 0},
    {FOZDRIK_BOTTOM_FIELD_PICTURE, FOZDRIK_SIXTEEN_BY_EIGHT, 0, 1, 0, 0},
    {FOZDRIK_TOP_FIELD_PICTURE, FOZDRIK_SIXTEEN_BY_EIGHT, 1, 1, 0, 0},
    {FOZDRIK_BOTTOM_FIELD_PICTURE, FOZDRIK_DUAL_PRIME, 1, 0, 0, 0}};

static const struct update refused[] = {
    {FOZDRIK_FRAME_PICTURE, NONE, 1, 0, 1, 0},
    {FOZDRIK_FRAME_PICTURE, NONE, 1, 0, 0, 0},
    {FOZDRIK_TOP_FIELD_PICTURE, FOZDRIK_FRAME_BASED, 1, 0, 0, 0},
    {FOZDRIK_FRAME_PICTURE, FOZDRIK_SIXTEEN_BY_EIGHT, 1, 0, 0, 0},
    {FOZDRIK_FRAME_PICTURE, FOZDRIK_DUAL_PRIME, 1, 1, 0, 0},
    {FOZDRIK_FRAME_PICTURE, FOZDRIK_FIELD_BASED, 0, 0, 0, 0}};

static void update_predictors(const char *name, const struct update *updates, size_t count, int accepted)
{
    struct fozdrik_update_context context;
    struct fozdrik_pmv pmv;
    uint8_t outcome;
    size_t i;

    fozdrik_pmv_reset(&pmv);
    next_kind();
    for (i = 0; i < count; i++) {
        uint32_t refusal;

        context.picture_structure = updates[i].structure;
        context.prediction_type_present = updates[i].type != NONE;
        context.prediction_type = updates[i].type;
        context.macroblock_motion_forward = updates[i].forward;
        context.macroblock_motion_backward = updates[i].backward;
        context.macroblock_intra = updates[i].intra;
        context.concealment_motion_vectors = updates[i].concealment;
        refusal = fozdrik_update_pmv(&context, &pmv, &outcome);
        expect((refusal == FOZDRIK_ACCEPTED) == accepted, name);
    }
    printf("%u\tupdate, %s\n", (unsigned)count, name);
}

int main(void)
{
    uint32_t format;
    int by_fields;
    uint32_t both;
    unsigned place;
    unsigned pattern;

    for (format = 0; format < 3; format++) {
        for (by_fields = 0; by_fields < 2; by_fields++) {
            for (both = 0; both < 2; both++) {
                for (place = 0; place < PLACES; place++) {
                    predict_macroblocks(format, by_fields, both, &places[place]);
                }
            }
        }
    }
    for (place = 0; place < PLACES; place++) {
        for (pattern = 0; pattern < PATTERNS; pattern++) {
            predict_blocks(0, 16, 16, &places[place], pattern);
        }
        for (pattern = 0; pattern < PATTERNS; pattern++) {
            predict_blocks(0, 8, 8, &places[place], pattern);
        }
        for (pattern = 0; pattern < PATTERNS; pattern++) {
            predict_blocks(1, 16, 8, &places[place], pattern);
        }
    }
    reconstruct_vectors("f_codes 1", 1, 1, FOZDRIK_FRAME_VECTOR, 0);
    reconstruct_vectors("f_codes 3 and 2", 3, 2, FOZDRIK_FRAME_VECTOR, 0);
    reconstruct_vectors("f_codes 3 and 2, field vectors in frame pictures", 3, 2, FOZDRIK_FIELD_VECTOR, 0);
    reconstruct_vectors("f_codes 3 and 2, refused in the vertical part", 3, 2, FOZDRIK_FRAME_VECTOR, 1);
    update_predictors("frame pictures", of_frame_pictures, sizeof of_frame_pictures / sizeof *of_frame_pictures, 1);
    update_predictors("field pictures", of_field_pictures, sizeof of_field_pictures / sizeof *of_field_pictures, 1);
    update_predictors("refused", refused, sizeof refused / sizeof *refused, 0);
    return 0;
}
