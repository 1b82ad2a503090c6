/*
 * The header by itself: every name that it declares, used in C and in C++, in two units of one program. It says what
 * does not hold, and ends with status 1 then.
 */
#include "fozdrik.h"
#include "fozdrik.h" /* a second time nothing is declared twice */

#include <stdio.h>
#include <string.h>

#ifdef __cplusplus
extern "C" {
#endif

/* in second.c */
int32_t second_unit(int32_t number);

#ifdef __cplusplus
}
#endif

static int failures;

static void holds(int condition, const char *text)
{
    if (!condition) {
        printf("does not hold: %s\n", text);
        failures++;
    }
}

#define HOLDS(condition) holds(condition, #condition)

/* as a program asks for a version: it has to be a number for the preprocessor too */
#if FOZDRIK_VERSION < 100
#error "FOZDRIK_VERSION is less than that of 0.1.0"
#endif

/* ---- numbers: those of docs/C-INTERFACE.md, and the version */

struct named {
    const char *name;
    uint32_t is;
    uint32_t should_be;
};

#define NUMBER(name, number) {#name, (uint32_t)(name), number}

static const struct named numbers[] = {
    NUMBER(FOZDRIK_VERSION_MAJOR, 0),
    NUMBER(FOZDRIK_VERSION_MINOR, 1),
    NUMBER(FOZDRIK_VERSION_PATCH, 0),
    NUMBER(FOZDRIK_VERSION, 100),
    NUMBER(FOZDRIK_FIRST, 0),
    NUMBER(FOZDRIK_SECOND, 1),
    NUMBER(FOZDRIK_FORWARD, 0),
    NUMBER(FOZDRIK_BACKWARD, 1),
    NUMBER(FOZDRIK_HORIZONTAL, 0),
    NUMBER(FOZDRIK_VERTICAL, 1),
    NUMBER(FOZDRIK_FIELD_VECTOR, 0),
    NUMBER(FOZDRIK_FRAME_VECTOR, 1),
    NUMBER(FOZDRIK_TOP_FIELD_PICTURE, 0),
    NUMBER(FOZDRIK_BOTTOM_FIELD_PICTURE, 1),
    NUMBER(FOZDRIK_FRAME_PICTURE, 2),
    NUMBER(FOZDRIK_FIELD_BASED, 0),
    NUMBER(FOZDRIK_FRAME_BASED, 1),
    NUMBER(FOZDRIK_SIXTEEN_BY_EIGHT, 2),
    NUMBER(FOZDRIK_DUAL_PRIME, 3),
    NUMBER(FOZDRIK_TOP, 0),
    NUMBER(FOZDRIK_BOTTOM, 1),
    NUMBER(FOZDRIK_YUV420, 0),
    NUMBER(FOZDRIK_YUV422, 1),
    NUMBER(FOZDRIK_YUV444, 2),
    NUMBER(FOZDRIK_NO, 0),
    NUMBER(FOZDRIK_YES, 1),
    NUMBER(FOZDRIK_INTRA_CONCEALMENT_COPY_FORWARD_FIRST, 0),
    NUMBER(FOZDRIK_INTRA_RESET_ALL, 1),
    NUMBER(FOZDRIK_NON_INTRA_COPY_BOTH, 2),
    NUMBER(FOZDRIK_NON_INTRA_COPY_FORWARD, 3),
    NUMBER(FOZDRIK_NON_INTRA_COPY_BACKWARD, 4),
    NUMBER(FOZDRIK_NON_INTRA_ZERO_MOTION_RESET, 5),
    NUMBER(FOZDRIK_NO_UPDATE, 6),
    NUMBER(FOZDRIK_DUAL_PRIME_COPY_FORWARD, 7),
    NUMBER(FOZDRIK_ACCEPTED, 0),
    NUMBER(FOZDRIK_F_CODE_OUTSIDE, 1),
    NUMBER(FOZDRIK_CODE_OUTSIDE, 2),
    NUMBER(FOZDRIK_RESIDUAL_FORBIDDEN, 3),
    NUMBER(FOZDRIK_RESIDUAL_MISSING, 4),
    NUMBER(FOZDRIK_DELTA_OUTSIDE, 5),
    NUMBER(FOZDRIK_VECTOR_OUTSIDE, 6),
    NUMBER(FOZDRIK_INTRA_WITH_MOTION, 7),
    NUMBER(FOZDRIK_TYPE_MISSING, 8),
    NUMBER(FOZDRIK_FRAME_BASED_IN_FIELD, 9),
    NUMBER(FOZDRIK_SIXTEEN_BY_EIGHT_IN_FRAME, 10),
    NUMBER(FOZDRIK_DUAL_PRIME_FLAGS, 11),
    NUMBER(FOZDRIK_NONE_ROW_FLAGS, 12),
    NUMBER(FOZDRIK_CELL_TOO_FAR, 13),
    NUMBER(FOZDRIK_OUTSIDE_DOMAIN, 14),
    NUMBER(FOZDRIK_OTHER_GEOMETRY, 15),
    NUMBER(FOZDRIK_FORWARD_MISSING, 16),
    NUMBER(FOZDRIK_BACKWARD_MISSING, 17),
    NUMBER(FOZDRIK_WRONG_LENGTH, 18),
    NUMBER(FOZDRIK_NO_MEANING, 38),
    NUMBER(FOZDRIK_PREDICTORS_LENGTH, 32),
    NUMBER(FOZDRIK_VECTOR_LENGTH, 8),
    NUMBER(FOZDRIK_OUTCOME_LENGTH, 1),
    NUMBER(FOZDRIK_MACROBLOCK_420, 384),
    NUMBER(FOZDRIK_MACROBLOCK_422, 512),
    NUMBER(FOZDRIK_MACROBLOCK_444, 768)};

static void test_numbers(void)
{
    size_t i;

    for (i = 0; i < sizeof numbers / sizeof numbers[0]; i++) {
        holds(numbers[i].is == numbers[i].should_be, numbers[i].name);
    }
}

/* The enums as types. What is passed is a uint32_t, and each converts to it. */
static void test_enums(void)
{
    enum fozdrik_vector_index index = FOZDRIK_SECOND;
    enum fozdrik_direction direction = FOZDRIK_BACKWARD;
    enum fozdrik_component part = FOZDRIK_VERTICAL;
    enum fozdrik_mv_format mv_format = FOZDRIK_FRAME_VECTOR;
    enum fozdrik_picture_structure structure = FOZDRIK_FRAME_PICTURE;
    enum fozdrik_prediction_type type = FOZDRIK_DUAL_PRIME;
    enum fozdrik_field_parity parity = FOZDRIK_BOTTOM;
    enum fozdrik_chroma_format format = FOZDRIK_YUV444;
    enum fozdrik_flag flag = FOZDRIK_YES;
    enum fozdrik_outcome outcome = FOZDRIK_NO_UPDATE;
    enum fozdrik_refusal refusal = FOZDRIK_NO_MEANING;
    enum fozdrik_length length = FOZDRIK_MACROBLOCK_444;
    uint32_t sum = (uint32_t)index + (uint32_t)direction + (uint32_t)part + (uint32_t)mv_format + (uint32_t)structure +
                   (uint32_t)type + (uint32_t)parity + (uint32_t)format + (uint32_t)flag + (uint32_t)outcome +
                   (uint32_t)refusal + (uint32_t)length;

    HOLDS(sum == 1 + 1 + 1 + 1 + 2 + 3 + 1 + 2 + 1 + 6 + 38 + 768);
}

/* ---- predictors */

static void test_predictors(void)
{
    static const int32_t values[] = {0, 1, -1, 255, -256, 65536, INT32_MAX, INT32_MIN};
    struct fozdrik_pmv pmv;
    uint32_t i;

    HOLDS(sizeof pmv == FOZDRIK_PREDICTORS_LENGTH);
    for (i = 0; i < 8; i++) {
        fozdrik_pmv_set(&pmv, i >> 2, i >> 1, i, values[i]);
        HOLDS(fozdrik_pmv_place(i >> 2, i >> 1, i) == 4 * (size_t)i);
    }
    for (i = 0; i < 8; i++) {
        HOLDS(fozdrik_pmv_get(&pmv, i >> 2, i >> 1, i) == values[i]);
        HOLDS(fozdrik_number_at(pmv.bytes + 4 * i) == values[i]);
        HOLDS(second_unit(values[i]) == values[i]);
    }
    HOLDS(pmv.bytes[28] == 0 && pmv.bytes[31] == 0x80); /* little-endian */
    HOLDS(fozdrik_pmv_place(UINT32_MAX, UINT32_MAX, UINT32_MAX) == 28);
    fozdrik_pmv_reset(&pmv);
    for (i = 0; i < FOZDRIK_PREDICTORS_LENGTH; i++) {
        HOLDS(pmv.bytes[i] == 0);
    }
}

static void test_vector(void)
{
    struct fozdrik_vector_context context = {
        FOZDRIK_FIRST, FOZDRIK_BACKWARD, FOZDRIK_FRAME_VECTOR, FOZDRIK_FRAME_PICTURE, 1, 2};
    struct fozdrik_coded_vector coded = {3, -3, FOZDRIK_NO, FOZDRIK_YES, 0, 1};
    struct fozdrik_vector vector = {100, 200};
    struct fozdrik_pmv pmv;
    uint8_t bytes[FOZDRIK_VECTOR_LENGTH] = {0};

    fozdrik_pmv_reset(&pmv);
    HOLDS(fozdrik_reconstruct_vector(&context, &coded, &pmv, &vector) == FOZDRIK_ACCEPTED);
    HOLDS(vector.horizontal == 3 && vector.vertical == -6);
    HOLDS(fozdrik_pmv_get(&pmv, FOZDRIK_FIRST, FOZDRIK_BACKWARD, FOZDRIK_VERTICAL) == -6);
    context.mv_format = 2;
    HOLDS(fozdrik_reconstruct_vector(&context, &coded, &pmv, &vector) == FOZDRIK_NO_MEANING);
    HOLDS(vector.horizontal == 3 && vector.vertical == -6);
    HOLDS(fozdrik_reconstruct_motion_vector(
              0, 1, 1, 0, 0, 1, 1, 0, 1, 2, 1, 2, pmv.bytes, sizeof pmv.bytes, bytes, sizeof bytes) == 0);
    HOLDS(fozdrik_number_at(bytes) == 4 && fozdrik_number_at(bytes + 4) == -5);
}

static void test_update(void)
{
    struct fozdrik_update_context context = {
        FOZDRIK_FRAME_PICTURE, FOZDRIK_YES, FOZDRIK_FRAME_BASED, FOZDRIK_YES, FOZDRIK_NO, FOZDRIK_NO, FOZDRIK_NO};
    struct fozdrik_pmv pmv;
    uint8_t outcome = 99;

    fozdrik_pmv_reset(&pmv);
    fozdrik_pmv_set(&pmv, FOZDRIK_FIRST, FOZDRIK_FORWARD, FOZDRIK_HORIZONTAL, 5);
    context.prediction_type = FOZDRIK_SIXTEEN_BY_EIGHT;
    HOLDS(fozdrik_update_pmv(&context, &pmv, &outcome) == FOZDRIK_SIXTEEN_BY_EIGHT_IN_FRAME && outcome == 99);
    context.prediction_type = FOZDRIK_FRAME_BASED;
    HOLDS(fozdrik_update_pmv(&context, &pmv, &outcome) == FOZDRIK_ACCEPTED);
    HOLDS(outcome == FOZDRIK_NON_INTRA_COPY_FORWARD);
    HOLDS(fozdrik_pmv_get(&pmv, FOZDRIK_SECOND, FOZDRIK_FORWARD, FOZDRIK_HORIZONTAL) == 5);
    HOLDS(fozdrik_update_predictors(2, 0, 0, 0, 0, 1, 0, pmv.bytes, sizeof pmv.bytes, &outcome, 1) == 0);
    HOLDS(outcome == FOZDRIK_INTRA_RESET_ALL);
}

/* ---- macroblocks: two pictures of one sample in each plane, so that every sample of a macroblock is the same */

static int all_are(const uint8_t *samples, size_t count, uint8_t value)
{
    size_t i;

    for (i = 0; i < count; i++) {
        if (samples[i] != value) {
            return 0;
        }
    }
    return 1;
}

static struct fozdrik_frame one_sample(const uint8_t *samples)
{
    struct fozdrik_geometry geometry = {16, 16, FOZDRIK_YUV420};
    struct fozdrik_plane plane = {samples, 1, 1, 1};
    struct fozdrik_frame frame;

    frame.geometry = geometry;
    frame.y = plane;
    plane.samples = samples + 1;
    frame.cb = plane;
    plane.samples = samples + 2;
    frame.cr = plane;
    return frame;
}

static void test_macroblocks(void)
{
    static const uint8_t samples[2][3] = {{10, 20, 30}, {11, 23, 41}};
    struct fozdrik_geometry picture = {16, 16, FOZDRIK_YUV420};
    struct fozdrik_frame before = one_sample(samples[0]);
    struct fozdrik_frame after = one_sample(samples[1]);
    struct fozdrik_frame absent = *fozdrik_frame_or_absent(NULL);
    struct fozdrik_frame_motion frames = {FOZDRIK_YES, {3, -2}, FOZDRIK_YES, {0, 0}};
    struct fozdrik_field_vector own = {FOZDRIK_TOP, {1, 1}};
    struct fozdrik_field_vector other = {FOZDRIK_BOTTOM, {-1, 0}};
    struct fozdrik_field_vector_pair pair;
    struct fozdrik_field_motion fields;
    uint8_t out[FOZDRIK_MACROBLOCK_420];

    HOLDS(fozdrik_macroblock_length(FOZDRIK_YUV420) == 384 && fozdrik_macroblock_length(FOZDRIK_YUV422) == 512);
    HOLDS(fozdrik_macroblock_length(FOZDRIK_YUV444) == 768 && fozdrik_macroblock_length(3) == 0);
    HOLDS(absent.y.samples == NULL && absent.cb.length == 0 && absent.cr.width == 0 && absent.geometry.height == 0);
    HOLDS(fozdrik_frame_or_absent(&before) == &before);

    memset(out, 7, sizeof out);
    HOLDS(fozdrik_predict_frame_based(&picture, 0, 0, NULL, NULL, &frames, out, sizeof out) == FOZDRIK_FORWARD_MISSING);
    frames.forward_present = FOZDRIK_NO;
    HOLDS(fozdrik_predict_frame_based(&picture, 0, 0, &before, NULL, &frames, out, sizeof out) ==
          FOZDRIK_BACKWARD_MISSING);
    frames.forward_present = FOZDRIK_YES;
    HOLDS(fozdrik_predict_frame_based(&picture, 0, 0, &before, &after, &frames, out, 1) == FOZDRIK_WRONG_LENGTH);
    HOLDS(all_are(out, sizeof out, 7));
    /* of two directions and one reference, that one alone */
    HOLDS(fozdrik_predict_frame_based(&picture, 0, 0, &before, NULL, &frames, out, sizeof out) == 0);
    HOLDS(all_are(out, 256, samples[0][0]) && all_are(out + 256, 64, samples[0][1]) && all_are(out + 320, 64, samples[0][2]));
    HOLDS(fozdrik_predict_frame_based(&picture, 0, 0, &before, &after, &frames, out, sizeof out) == 0);
    HOLDS(all_are(out, 256, 11) && all_are(out + 256, 64, 22) && all_are(out + 320, 64, 36));

    pair.top = own;
    pair.bottom = other;
    fields.forward_present = FOZDRIK_NO;
    fields.forward = pair;
    fields.backward_present = FOZDRIK_YES;
    fields.backward = pair;
    HOLDS(fozdrik_predict_field_based(&picture, 0, 0, NULL, &after, &fields, out, sizeof out) == 0);
    HOLDS(all_are(out, 256, 11) && all_are(out + 256, 64, 23) && all_are(out + 320, 64, 41));
    fields.forward_present = 2;
    HOLDS(fozdrik_predict_field_based(&picture, 0, 0, NULL, &after, &fields, out, sizeof out) == FOZDRIK_NO_MEANING);

    /* planes without samples, by null pointers, are read as 0; the arguments stand as in the header, line by line */
    HOLDS(fozdrik_predict_frame_macroblock(
              0, 0, FOZDRIK_YUV420, 0, 0,
              FOZDRIK_YES, 0, 0, FOZDRIK_YUV420, 0, 0, 0, 0, 0, 0, NULL, 0, NULL, 0, NULL, 0,
              FOZDRIK_NO, 0, 0, 99, 0, 0, 0, 0, 0, 0, NULL, 0, NULL, 0, NULL, 0,
              FOZDRIK_YES, 1, 1, FOZDRIK_NO, 0, 0, out, sizeof out) == FOZDRIK_ACCEPTED);
    HOLDS(all_are(out, sizeof out, 0));
    HOLDS(fozdrik_predict_field_macroblock(
              0, 0, FOZDRIK_YUV420, 1024, 0,
              FOZDRIK_YES, 0, 0, FOZDRIK_YUV420, 0, 0, 0, 0, 0, 0, NULL, 0, NULL, 0, NULL, 0,
              FOZDRIK_NO, 0, 0, 99, 0, 0, 0, 0, 0, 0, NULL, 0, NULL, 0, NULL, 0,
              FOZDRIK_YES, FOZDRIK_TOP, 1, 1, FOZDRIK_BOTTOM, 1, 1,
              FOZDRIK_NO, 99, 0, 0, 99, 0, 0, out, sizeof out) == FOZDRIK_CELL_TOO_FAR);
}

int main(void)
{
    test_numbers();
    test_enums();
    test_predictors();
    test_vector();
    test_update();
    test_macroblocks();
    return failures != 0;
}
