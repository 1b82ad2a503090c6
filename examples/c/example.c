/*
 * The four calls from C: vectors, updates of their predictors, a frame-based macroblock, and a field-based one from its
 * codes to its samples. It prints what it does; expected_example.txt is what it has to print. C99, and C++ too.
 */
#include <stdio.h>
#include <string.h>

#include "fozdrik.h"

/* ---- printing */

static void print_pair(const struct fozdrik_pmv *pmv, uint32_t r, uint32_t s)
{
    printf("(%d, %d)", (int)fozdrik_pmv_get(pmv, r, s, FOZDRIK_HORIZONTAL),
           (int)fozdrik_pmv_get(pmv, r, s, FOZDRIK_VERTICAL));
}

static void print_predictors(const struct fozdrik_pmv *pmv)
{
    printf("; forward ");
    print_pair(pmv, FOZDRIK_FIRST, FOZDRIK_FORWARD);
    printf(" ");
    print_pair(pmv, FOZDRIK_SECOND, FOZDRIK_FORWARD);
    printf(", backward ");
    print_pair(pmv, FOZDRIK_FIRST, FOZDRIK_BACKWARD);
    printf(" ");
    print_pair(pmv, FOZDRIK_SECOND, FOZDRIK_BACKWARD);
    printf("\n");
}

static void print_answer(uint32_t refusal)
{
    if (refusal == FOZDRIK_ACCEPTED) {
        printf("accepted");
    } else {
        printf("refused, %u", (unsigned)refusal);
    }
}

static void print_titled_answer(const char *title, uint32_t refusal)
{
    printf("  %s: ", title);
    print_answer(refusal);
    printf("\n");
}

static void print_row(const char *title, const uint8_t *samples, int count)
{
    int i;

    printf("  %-22s", title);
    for (i = 0; i < count; i++) {
        printf(" %3d", samples[i]);
    }
    printf("\n");
}

/* ---- vectors */

/* A vector without residuals, as f_code 1 has it. */
static struct fozdrik_coded_vector codes(int32_t horizontal, int32_t vertical)
{
    struct fozdrik_coded_vector coded;

    memset(&coded, 0, sizeof coded);
    coded.motion_code_horiz = horizontal;
    coded.motion_code_vert = vertical;
    return coded;
}

static void show_vector(const char *title, const struct fozdrik_vector_context *context,
                        struct fozdrik_coded_vector coded, struct fozdrik_pmv *pmv)
{
    struct fozdrik_vector vector = {0, 0};
    uint32_t refusal = fozdrik_reconstruct_vector(context, &coded, pmv, &vector);

    printf("  %-40s ", title);
    if (refusal == FOZDRIK_ACCEPTED) {
        printf("(%d, %d)", (int)vector.horizontal, (int)vector.vertical);
    } else {
        print_answer(refusal);
    }
    printf("; predictors ");
    print_pair(pmv, context->r, context->s);
    printf("\n");
}

static void vectors(void)
{
    struct fozdrik_vector_context frame = {
        FOZDRIK_FIRST, FOZDRIK_FORWARD, FOZDRIK_FRAME_VECTOR, FOZDRIK_FRAME_PICTURE, 1, 1};
    struct fozdrik_vector_context other;
    struct fozdrik_coded_vector coded;
    struct fozdrik_pmv pmv;

    fozdrik_pmv_reset(&pmv);
    printf("vectors in half samples; at f_code 1 they are -16 to 15\n");
    show_vector("codes 3 and -2", &frame, codes(3, -2), &pmv);
    show_vector("then 15 and -16: the sums wrap by 32", &frame, codes(15, -16), &pmv);

    /* In a frame picture a field vector's vertical prediction is half the predictor, which takes twice the vector. */
    other = frame;
    other.mv_format = FOZDRIK_FIELD_VECTOR;
    show_vector("then a field vector, codes 0 and 1", &other, codes(0, 1), &pmv);

    show_vector("then code 16: outside the range", &frame, codes(16, 0), &pmv);

    /* A predictor that no vector of this f_code leaves behind. */
    fozdrik_pmv_set(&pmv, FOZDRIK_FIRST, FOZDRIK_FORWARD, FOZDRIK_VERTICAL, 48);
    show_vector("from (-14, 48), codes 1 and 0", &frame, codes(1, 0), &pmv);
    printf("    one wrap does not bring 48 into the range; the new horizontal predictor stays\n");

    /* f_code 2: the difference is (3 - 1) * 2 + 1 + 1 = 6, the range -32 to 31. */
    other = frame;
    other.s = FOZDRIK_BACKWARD;
    other.f_code_horiz = 2;
    coded = codes(3, 0);
    coded.motion_residual_horiz_present = FOZDRIK_YES;
    coded.motion_residual_horiz = 1;
    fozdrik_pmv_set(&pmv, FOZDRIK_FIRST, FOZDRIK_BACKWARD, FOZDRIK_HORIZONTAL, 30);
    show_vector("f_code 2, code 3, residual 1, from 30", &other, coded, &pmv);

    other = frame;
    other.picture_structure = 3; /* means a frame picture in the stream, and nothing here */
    show_vector("picture structure 3, the stream's code", &other, codes(0, 0), &pmv);
}

/* ---- updates */

static void show_update(const char *title, const struct fozdrik_update_context *context, struct fozdrik_pmv *pmv)
{
    uint8_t outcome = 255;
    uint32_t refusal = fozdrik_update_pmv(context, pmv, &outcome);

    printf("  %-28s ", title);
    if (refusal == FOZDRIK_ACCEPTED) {
        printf("outcome %u", (unsigned)outcome);
    } else {
        print_answer(refusal);
    }
    print_predictors(pmv);
}

static void updates(void)
{
    static const struct fozdrik_update_context frame_based = {
        FOZDRIK_FRAME_PICTURE, FOZDRIK_YES, FOZDRIK_FRAME_BASED, FOZDRIK_YES, FOZDRIK_NO, FOZDRIK_NO, FOZDRIK_NO};
    static const struct fozdrik_update_context sixteen_by_eight = {
        FOZDRIK_FRAME_PICTURE, FOZDRIK_YES, FOZDRIK_SIXTEEN_BY_EIGHT, FOZDRIK_YES, FOZDRIK_NO, FOZDRIK_NO, FOZDRIK_NO};
    static const struct fozdrik_update_context intra = {
        FOZDRIK_FRAME_PICTURE, FOZDRIK_NO, 0, FOZDRIK_NO, FOZDRIK_NO, FOZDRIK_YES, FOZDRIK_NO};
    struct fozdrik_pmv pmv;

    fozdrik_pmv_reset(&pmv);
    fozdrik_pmv_set(&pmv, FOZDRIK_FIRST, FOZDRIK_FORWARD, FOZDRIK_HORIZONTAL, -13);
    fozdrik_pmv_set(&pmv, FOZDRIK_FIRST, FOZDRIK_FORWARD, FOZDRIK_VERTICAL, 16);
    fozdrik_pmv_set(&pmv, FOZDRIK_FIRST, FOZDRIK_BACKWARD, FOZDRIK_HORIZONTAL, 7);
    printf("updates; the predictors of each direction are shown first, second\n");
    show_update("frame-based, forward", &frame_based, &pmv);
    show_update("16 x 8 in a frame picture", &sixteen_by_eight, &pmv);
    show_update("intra", &intra, &pmv);
}

/* ---- macroblocks */

enum { WIDTH = 32, HEIGHT = 32, CHROMA_WIDTH = WIDTH / 2, CHROMA_HEIGHT = HEIGHT / 2 };

struct picture {
    uint8_t y[WIDTH * HEIGHT];
    uint8_t cb[CHROMA_WIDTH * CHROMA_HEIGHT];
    uint8_t cr[CHROMA_WIDTH * CHROMA_HEIGHT];
};

/* Column x of a field's line n holds base + x + 3 * n, and 100 more in the bottom field. */
static void fill(uint8_t *samples, int width, int height, int base)
{
    int x, y;

    for (y = 0; y < height; y++) {
        for (x = 0; x < width; x++) {
            samples[y * width + x] = (uint8_t)(base + x + 3 * (y / 2) + 100 * (y % 2));
        }
    }
}

static void fill_picture(struct picture *picture, int base)
{
    fill(picture->y, WIDTH, HEIGHT, base);
    fill(picture->cb, CHROMA_WIDTH, CHROMA_HEIGHT, base + 10);
    fill(picture->cr, CHROMA_WIDTH, CHROMA_HEIGHT, base + 20);
}

static struct fozdrik_plane plane_of(const uint8_t *samples, size_t length, size_t width, size_t height)
{
    struct fozdrik_plane plane;

    plane.samples = samples;
    plane.length = length;
    plane.width = width;
    plane.height = height;
    return plane;
}

static struct fozdrik_frame frame_of(const struct picture *picture, const struct fozdrik_geometry *geometry)
{
    struct fozdrik_frame frame;

    frame.geometry = *geometry;
    frame.y = plane_of(picture->y, sizeof picture->y, WIDTH, HEIGHT);
    frame.cb = plane_of(picture->cb, sizeof picture->cb, CHROMA_WIDTH, CHROMA_HEIGHT);
    frame.cr = plane_of(picture->cr, sizeof picture->cr, CHROMA_WIDTH, CHROMA_HEIGHT);
    return frame;
}

/* One of the macroblock's four field vectors, from its codes; the field that it reads is a bit of the stream. */
static uint32_t field_vector(uint32_t r, uint32_t s, int32_t horizontal, int32_t vertical, uint32_t reference_field,
                             struct fozdrik_pmv *pmv, struct fozdrik_field_vector *result)
{
    struct fozdrik_vector_context context = {0, 0, FOZDRIK_FIELD_VECTOR, FOZDRIK_FRAME_PICTURE, 1, 1};
    struct fozdrik_coded_vector coded = codes(horizontal, vertical);

    context.r = r;
    context.s = s;
    result->reference_field = reference_field;
    return fozdrik_reconstruct_vector(&context, &coded, pmv, &result->vector);
}

static unsigned long sum_of(const uint8_t *samples, size_t count)
{
    unsigned long sum = 0;
    size_t i;

    for (i = 0; i < count; i++) {
        sum += samples[i];
    }
    return sum;
}

static void frame_macroblock(void)
{
    static struct picture before;
    static const struct fozdrik_geometry geometry = {WIDTH, HEIGHT, FOZDRIK_YUV420};
    struct fozdrik_frame forward = frame_of(&before, &geometry);
    struct fozdrik_frame_motion motion = {FOZDRIK_YES, {1, 1}, FOZDRIK_NO, {0, 0}};
    uint8_t out[FOZDRIK_MACROBLOCK_420];
    uint32_t refusal;

    fill_picture(&before, 0);
    printf("a frame-based macroblock from a picture of 32 x 32, 4:2:0; column 0, row 1\n");

    /* Half a sample to the right and half a row down: each sample is a mean of four, two from either field. */
    refusal = fozdrik_predict_frame_based(&geometry, 0, 1, &forward, NULL, &motion, out, sizeof out);
    print_titled_answer("by (1, 1)", refusal);
    print_row("row 0", out, 16);
    print_row("row 1", out + 16, 16);
    print_row("Cb, row 0", out + 256, 8);

    motion.forward_present = FOZDRIK_NO; /* the forward picture by the zero vector */
    refusal = fozdrik_predict_frame_based(&geometry, 0, 1, &forward, NULL, &motion, out, sizeof out);
    print_titled_answer("without motion", refusal);
    print_row("row 0", out, 16);
    print_row("row 1", out + 16, 16);

    refusal = fozdrik_predict_frame_based(&geometry, 1024, 1, &forward, NULL, &motion, out, sizeof out);
    print_titled_answer("in column 1024", refusal);
    refusal = fozdrik_predict_frame_based(&geometry, 0, 1, &forward, NULL, &motion, out, sizeof out - 1);
    print_titled_answer("into 383 bytes", refusal);
}

static void field_macroblock(void)
{
    static struct picture before, after;
    static const struct fozdrik_geometry geometry = {WIDTH, HEIGHT, FOZDRIK_YUV420};
    static const struct fozdrik_update_context field_based = {
        FOZDRIK_FRAME_PICTURE, FOZDRIK_YES, FOZDRIK_FIELD_BASED, FOZDRIK_YES, FOZDRIK_YES, FOZDRIK_NO, FOZDRIK_NO};
    struct fozdrik_frame forward = frame_of(&before, &geometry);
    struct fozdrik_frame backward = frame_of(&after, &geometry);
    struct fozdrik_field_motion motion;
    struct fozdrik_pmv pmv;
    uint8_t out[FOZDRIK_MACROBLOCK_420];
    uint8_t outcome = 255;
    uint32_t refusal;

    fill_picture(&before, 0);
    fill_picture(&after, 50);

    /* The vectors, in the order of the stream: forward first and second, then backward. */
    fozdrik_pmv_reset(&pmv);
    memset(&motion, 0, sizeof motion);
    motion.forward_present = FOZDRIK_YES;
    motion.backward_present = FOZDRIK_YES;
    refusal = field_vector(FOZDRIK_FIRST, FOZDRIK_FORWARD, 2, 0, FOZDRIK_TOP, &pmv, &motion.forward.top);
    if (refusal == FOZDRIK_ACCEPTED) {
        refusal = field_vector(FOZDRIK_SECOND, FOZDRIK_FORWARD, 1, 1, FOZDRIK_TOP, &pmv, &motion.forward.bottom);
    }
    if (refusal == FOZDRIK_ACCEPTED) {
        refusal = field_vector(FOZDRIK_FIRST, FOZDRIK_BACKWARD, 0, -2, FOZDRIK_BOTTOM, &pmv, &motion.backward.top);
    }
    if (refusal == FOZDRIK_ACCEPTED) {
        refusal = field_vector(FOZDRIK_SECOND, FOZDRIK_BACKWARD, 0, 2, FOZDRIK_BOTTOM, &pmv, &motion.backward.bottom);
    }
    if (refusal == FOZDRIK_ACCEPTED) {
        refusal = fozdrik_update_pmv(&field_based, &pmv, &outcome);
    }
    if (refusal != FOZDRIK_ACCEPTED) {
        print_answer(refusal);
        printf("\n");
        return;
    }
    printf("a field-based macroblock from two pictures of 32 x 32, 4:2:0; column 1, row 0\n");
    printf("  its four vectors leave outcome %u", (unsigned)outcome);
    print_predictors(&pmv);

    refusal = fozdrik_predict_field_based(&geometry, 1, 0, &forward, &backward, &motion, out, sizeof out);
    print_titled_answer("both directions", refusal);
    print_row("row 0, top field", out, 16);
    print_row("row 1, bottom field", out + 16, 16);
    print_row("row 2, top field", out + 32, 16);
    print_row("row 3, bottom field", out + 48, 16);
    print_row("Cb, row 0", out + 256, 8);
    print_row("Cb, row 1", out + 264, 8);
    print_row("Cr, row 0", out + 320, 8);
    print_row("Cr, row 1", out + 328, 8);
    printf("  sum of all 384 samples %lu\n", sum_of(out, sizeof out));

    /* A null pointer says that there is no such picture. */
    refusal = fozdrik_predict_field_based(&geometry, 1, 0, NULL, NULL, &motion, out, sizeof out);
    printf("  without both pictures: ");
    print_answer(refusal);
    printf("; the sum is still %lu\n", sum_of(out, sizeof out));

    /* With one of them the macroblock is predicted from that one, by its own vectors. */
    refusal = fozdrik_predict_field_based(&geometry, 1, 0, &forward, NULL, &motion, out, sizeof out);
    print_titled_answer("without the backward picture", refusal);
    print_row("row 0, top field", out, 16);
    print_row("row 1, bottom field", out + 16, 16);

    motion.forward_present = FOZDRIK_NO; /* what stands beside it then counts for nothing */
    refusal = fozdrik_predict_field_based(&geometry, 1, 0, &forward, NULL, &motion, out, sizeof out);
    printf("  backward motion alone, without that picture: ");
    print_answer(refusal);
    printf("\n");
}

int main(void)
{
    vectors();
    updates();
    frame_macroblock();
    field_macroblock();
    return 0;
}
