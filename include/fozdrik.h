/*
 * Fozdrik: motion vectors, their predictors, and predicted macroblocks of MPEG-2 frame pictures
 * (ISO/IEC 13818-2, clause 7.6). C99 and C++11; link with libfozdrik.a.
 *
 *   fozdrik_reconstruct_motion_vector   a vector from the codes of the stream
 *   fozdrik_update_predictors           the predictors after a macroblock
 *   fozdrik_predict_frame_macroblock    a macroblock predicted by frame vectors
 *   fozdrik_predict_field_macroblock    a macroblock of a frame picture predicted by field vectors
 *
 * The last part of this file has a short form of each over structs. Use those: the raw calls of prediction
 * take some fifty arguments. docs/C-INTERFACE.md has layouts, the order of refusals, and examples, and says how
 * field pictures, 16 x 8 and dual prime, for which there is no call, can be predicted by these.
 *
 * Every call
 *   - takes any value of its types, and returns 0 or the number of a refusal (enum fozdrik_refusal).
 *     After a refusal all that the call could write holds what it held, with the one exception that is written
 *     at the vector call.
 *   - ends, allocates nothing, keeps nothing and has no state: any number of threads may call at once, each
 *     with predictors and outputs of its own.
 *   - trusts its pointers, since C can tell nothing of them. Each must have as many bytes behind it as the
 *     length after it says, used or not, also beside a presence of 0 and where the call refuses. Where the length
 *     is 0 the pointer may be null; that is what to pass for the planes of a reference that is absent.
 *   - needs predictors, vector, outcome and out to be writable, and read and written by nobody else during the
 *     call, also where it refuses: a refused vector or update may store again what was there.
 *   - asks that nothing it writes overlaps anything else it is given, and that nobody writes its inputs meanwhile.
 *     Inputs may overlap, or be the same: one picture may be both references.
 *   - asks for no alignment.
 */
#ifndef FOZDRIK_H
#define FOZDRIK_H

#include <stddef.h>
#include <stdint.h>

/* The version of this header, which is the first of CHANGELOG.md, and all of it as one number. The archive has none. */
#define FOZDRIK_VERSION_MAJOR 0
#define FOZDRIK_VERSION_MINOR 1
#define FOZDRIK_VERSION_PATCH 0
#define FOZDRIK_VERSION (10000 * FOZDRIK_VERSION_MAJOR + 100 * FOZDRIK_VERSION_MINOR + FOZDRIK_VERSION_PATCH)

#ifdef __cplusplus
extern "C" {
#endif

/*
 * The numbers that stand for kinds. They count from 0, and most are NOT the codes of the stream, which has
 * picture_structure 1, 2, 3 for top field, bottom field, frame, and chroma_format 1, 2, 3: pass the code less 1.
 * A number that is read and is none of these is refused with 38. Arguments and fields are uint32_t and no enum
 * types, since an enum need not hold a number that it does not name.
 */

/* r of Table 7-7: which of a macroblock's vectors in one direction */
enum fozdrik_vector_index {
    FOZDRIK_FIRST = 0,
    FOZDRIK_SECOND = 1
};

/* s of Table 7-7 */
enum fozdrik_direction {
    FOZDRIK_FORWARD = 0,
    FOZDRIK_BACKWARD = 1
};

/* t of Table 7-7; only the functions on predictors below take it */
enum fozdrik_component {
    FOZDRIK_HORIZONTAL = 0,
    FOZDRIK_VERTICAL = 1
};

/* mv_format, which is not coded but follows from the motion type (Tables 6-17 and 6-18), and how many vectors each
 * direction has. A concealment vector, which an intra macroblock has, is one of the forward direction.
 *
 *     frame picture   frame-based   frame   1        field picture   field-based   field   1
 *                     field-based   field   2                        16 x 8        field   2
 *                     dual prime    field   1                        dual prime    field   1
 *                     concealment   frame   1                        concealment   field   1
 */
enum fozdrik_mv_format {
    FOZDRIK_FIELD_VECTOR = 0,
    FOZDRIK_FRAME_VECTOR = 1
};

/* picture_structure: the stream's code less 1 */
enum fozdrik_picture_structure {
    FOZDRIK_TOP_FIELD_PICTURE = 0,
    FOZDRIK_BOTTOM_FIELD_PICTURE = 1,
    FOZDRIK_FRAME_PICTURE = 2
};

/* what frame_motion_type (codes 1, 2, 3: field-based, frame-based, dual prime) or field_motion_type (1, 2, 3:
 * field-based, 16 x 8, dual prime) selects */
enum fozdrik_prediction_type {
    FOZDRIK_FIELD_BASED = 0,
    FOZDRIK_FRAME_BASED = 1,
    FOZDRIK_SIXTEEN_BY_EIGHT = 2,
    FOZDRIK_DUAL_PRIME = 3
};

/* the field that a vector reads: motion_vertical_field_select, whose codes are the same */
enum fozdrik_field_parity {
    FOZDRIK_TOP = 0,
    FOZDRIK_BOTTOM = 1
};

/* chroma_format: the stream's code less 1 */
enum fozdrik_chroma_format {
    FOZDRIK_YUV420 = 0,
    FOZDRIK_YUV422 = 1,
    FOZDRIK_YUV444 = 2
};

/* flags and presences. No number beside a presence of 0 counts, whatever it is; a pointer there is as any other. */
enum fozdrik_flag {
    FOZDRIK_NO = 0,
    FOZDRIK_YES = 1
};

/* which row of Tables 7-10 and 7-11 an update was; "first to second" is PMV[0][s] copied to PMV[1][s] */
enum fozdrik_outcome {
    FOZDRIK_INTRA_CONCEALMENT_COPY_FORWARD_FIRST = 0, /* intra, concealment vectors: forward, first to second */
    FOZDRIK_INTRA_RESET_ALL = 1,                      /* intra without: all zero */
    FOZDRIK_NON_INTRA_COPY_BOTH = 2,                  /* both directions, first to second */
    FOZDRIK_NON_INTRA_COPY_FORWARD = 3,
    FOZDRIK_NON_INTRA_COPY_BACKWARD = 4,
    FOZDRIK_NON_INTRA_ZERO_MOTION_RESET = 5,          /* no motion flag: all zero */
    FOZDRIK_NO_UPDATE = 6,                            /* "(none)": each vector has stored its own predictor */
    FOZDRIK_DUAL_PRIME_COPY_FORWARD = 7
};

/* What the four calls return: 0, or one of these. Each call's comment has the order in which it tests.
 *
 * stream: the bits of a damaged or cut stream can lead there, though the program is right. After 1, 5 and 11 conceal what
 * is left of the slice, and go on at the next one. 16 and 17: a picture with no reference is to be dropped; of a B picture
 * that lacks one, the macroblocks with both directions are predicted from the other one, and those that need the absent
 * one alone are refused: conceal these. caller: the program is wrong.
 * docs/C-INTERFACE.md says more of each.
 */
enum fozdrik_refusal {
    FOZDRIK_ACCEPTED = 0,

    /* a vector */
    FOZDRIK_F_CODE_OUTSIDE = 1,     /* stream (the picture's header): f_code is not 1 to 9 */
    FOZDRIK_CODE_OUTSIDE = 2,       /* caller: motion_code is not -16 to 16 */
    FOZDRIK_RESIDUAL_FORBIDDEN = 3, /* caller: there is a motion_residual, though f_code is 1 or the code 0 */
    FOZDRIK_RESIDUAL_MISSING = 4,   /* caller: there is none, though f_code is above 1 and the code not 0 */
    FOZDRIK_DELTA_OUTSIDE = 5,      /* stream: the difference is outside the range of f_code, as code 16 at f_code 1 */
    FOZDRIK_VECTOR_OUTSIDE = 6,     /* caller (predictors of other f_codes): the vector is outside, even after a wrap */

    /* an update */
    FOZDRIK_INTRA_WITH_MOTION = 7,          /* caller: an intra macroblock with a motion flag */
    FOZDRIK_TYPE_MISSING = 8,               /* caller: not intra, and no prediction type */
    FOZDRIK_FRAME_BASED_IN_FIELD = 9,       /* caller: frame-based in a field picture */
    FOZDRIK_SIXTEEN_BY_EIGHT_IN_FRAME = 10, /* caller */
    FOZDRIK_DUAL_PRIME_FLAGS = 11,          /* stream: dual prime, and the flags are not forward alone */
    FOZDRIK_NONE_ROW_FLAGS = 12,            /* caller: a row "(none)" without a motion flag */

    /* a prediction */
    FOZDRIK_CELL_TOO_FAR = 13,     /* caller: mb_col or mb_row is over 1,023 */
    FOZDRIK_OUTSIDE_DOMAIN = 14,   /* caller: a plane's length is not width * height, or a side is over 16,384 */
    FOZDRIK_OTHER_GEOMETRY = 15,   /* caller: a reference declares another width, height or format than the picture */
    FOZDRIK_FORWARD_MISSING = 16,  /* stream (a start, a switch): the forward reference is used, and absent; or both
                                      directions are, and both references absent */
    FOZDRIK_BACKWARD_MISSING = 17, /* stream (a start, a switch): backward motion alone, and that reference absent */
    FOZDRIK_WRONG_LENGTH = 18,     /* caller: out is not of a macroblock's length */

    /* any call */
    FOZDRIK_NO_MEANING = 38        /* caller: a kind, flag or presence has no meaning, or predictors, vector or outcome
                                      has the wrong length; tested before all else */
};

/* lengths of the buffers, in bytes */
enum fozdrik_length {
    FOZDRIK_PREDICTORS_LENGTH = 32,
    FOZDRIK_VECTOR_LENGTH = 8,
    FOZDRIK_OUTCOME_LENGTH = 1,
    FOZDRIK_MACROBLOCK_420 = 384, /* the shape is at fozdrik_predict_frame_macroblock */
    FOZDRIK_MACROBLOCK_422 = 512,
    FOZDRIK_MACROBLOCK_444 = 768
};

/* ---- the raw calls */

/*
 * A vector, in half samples, from the codes of the stream and the predictors, which take the new values.
 *
 * r is an index, s a direction; the f_codes are those of that direction. A motion_residual is read where the
 * presence before it is 1.
 * predictors: 32 bytes, PMV[r][s][t] as a little-endian two's complement number at byte 4 * (4 * r + 2 * s + t).
 * vector: 8 bytes, the horizontal and then the vertical component, in the same form.
 *
 * Refusals: 38; then of the horizontal part 1, 2, 3 or 4, 5, 6; then the same of the vertical part. A refusal
 * leaves vector as it was. It leaves the predictors as they were too, BUT where the vertical part is refused the
 * new horizontal predictor stays, as in the original. With 1 to 6 PMV[r][s] is stored all the same.
 */
uint32_t fozdrik_reconstruct_motion_vector(
    uint32_t r, uint32_t s,
    int32_t motion_code_horiz, uint32_t motion_residual_horiz_present, uint8_t motion_residual_horiz,
    int32_t motion_code_vert, uint32_t motion_residual_vert_present, uint8_t motion_residual_vert,
    uint8_t f_code_horiz, uint8_t f_code_vert,
    uint32_t mv_format, uint32_t picture_structure,
    uint8_t *predictors, size_t predictors_len,
    uint8_t *vector, size_t vector_len);

/*
 * The predictors after a macroblock whose vectors have been reconstructed: Tables 7-10 and 7-11.
 *
 * prediction_type is read where its presence is 1; an intra macroblock has none. Any other needs one: where the
 * stream has none, pass frame-based in a frame picture and field-based in a field picture.
 * predictors: as above. outcome: 1 byte, which takes a number of enum fozdrik_outcome.
 *
 * Refusals: 38; 7; 8; 9; 10; then 11 or 12. Nothing is changed by one; with 7 to 12 both buffers are stored all the
 * same.
 */
uint32_t fozdrik_update_predictors(
    uint32_t picture_structure,
    uint32_t prediction_type_present, uint32_t prediction_type,
    uint32_t macroblock_motion_forward, uint32_t macroblock_motion_backward,
    uint32_t macroblock_intra, uint32_t concealment_motion_vectors,
    uint8_t *predictors, size_t predictors_len,
    uint8_t *outcome, size_t outcome_len);

/*
 * The prediction of a frame-based macroblock.
 *
 * width, height and chroma_format are those of the picture that is being decoded; mb_col and mb_row count its
 * macroblocks. Then the two references: whether there is one, what it declares, the sides of its planes, and
 * their samples row after row without a gap. Then the vector of each direction, in half luminance samples; the
 * chrominance's is derived. Two directions are averaged; where the reference of one of the two is absent, the other
 * one alone is used, by its own vector. With no motion at all the zero vector is taken, from the forward reference.
 * What lies outside a plane is read as its nearest sample.
 *
 * Planes have the coded size, whole macroblocks: 1,088 rows of luminance and not the 1,080 that are shown. With fewer,
 * the last row is read in place of those that are missing, and nothing is refused.
 *
 * out: a block of each component, row after row in the order of the frame's lines; columns x rows, from which byte:
 *     4:2:0   Y 16 x 16 from 0   Cb  8 x  8 from 256   Cr  8 x  8 from 320   384 bytes
 *     4:2:2   Y 16 x 16 from 0   Cb  8 x 16 from 256   Cr  8 x 16 from 384   512 bytes
 *     4:4:4   Y 16 x 16 from 0   Cb 16 x 16 from 256   Cr 16 x 16 from 512   768 bytes
 *
 * Refusals: 38; 13; 18; 16; 17; 15 of the forward reference, then of the backward one; 14. Of the last four only
 * those of the references that are used. Nothing is written by one.
 */
uint32_t fozdrik_predict_frame_macroblock(
    size_t width, size_t height, uint32_t chroma_format, size_t mb_col, size_t mb_row,
    uint32_t forward_present, size_t forward_width, size_t forward_height, uint32_t forward_format,
    size_t forward_y_width, size_t forward_y_height,
    size_t forward_cb_width, size_t forward_cb_height,
    size_t forward_cr_width, size_t forward_cr_height,
    const uint8_t *forward_y, size_t forward_y_len,
    const uint8_t *forward_cb, size_t forward_cb_len,
    const uint8_t *forward_cr, size_t forward_cr_len,
    uint32_t backward_present, size_t backward_width, size_t backward_height, uint32_t backward_format,
    size_t backward_y_width, size_t backward_y_height,
    size_t backward_cb_width, size_t backward_cb_height,
    size_t backward_cr_width, size_t backward_cr_height,
    const uint8_t *backward_y, size_t backward_y_len,
    const uint8_t *backward_cb, size_t backward_cb_len,
    const uint8_t *backward_cr, size_t backward_cr_len,
    uint32_t forward_motion, int32_t forward_horizontal, int32_t forward_vertical,
    uint32_t backward_motion, int32_t backward_horizontal, int32_t backward_vertical,
    uint8_t *out, size_t out_len);

/*
 * The prediction of a field-based macroblock of a frame picture: the same, but each direction has a vector for the
 * rows of the macroblock's top field and one for those of its bottom field. Before each vector stands the parity
 * of the reference's field that it reads; its vertical part counts half lines of that field. Where the reference of one
 * of two directions is absent, the other one alone is used, by its own two vectors. With no motion at all each field is
 * taken from the same field of the forward reference, by the zero vector.
 *
 * Refusals: as above.
 */
uint32_t fozdrik_predict_field_macroblock(
    size_t width, size_t height, uint32_t chroma_format, size_t mb_col, size_t mb_row,
    uint32_t forward_present, size_t forward_width, size_t forward_height, uint32_t forward_format,
    size_t forward_y_width, size_t forward_y_height,
    size_t forward_cb_width, size_t forward_cb_height,
    size_t forward_cr_width, size_t forward_cr_height,
    const uint8_t *forward_y, size_t forward_y_len,
    const uint8_t *forward_cb, size_t forward_cb_len,
    const uint8_t *forward_cr, size_t forward_cr_len,
    uint32_t backward_present, size_t backward_width, size_t backward_height, uint32_t backward_format,
    size_t backward_y_width, size_t backward_y_height,
    size_t backward_cb_width, size_t backward_cb_height,
    size_t backward_cr_width, size_t backward_cr_height,
    const uint8_t *backward_y, size_t backward_y_len,
    const uint8_t *backward_cb, size_t backward_cb_len,
    const uint8_t *backward_cr, size_t backward_cr_len,
    uint32_t forward_motion,
    uint32_t forward_top_field, int32_t forward_top_horizontal, int32_t forward_top_vertical,
    uint32_t forward_bottom_field, int32_t forward_bottom_horizontal, int32_t forward_bottom_vertical,
    uint32_t backward_motion,
    uint32_t backward_top_field, int32_t backward_top_horizontal, int32_t backward_top_vertical,
    uint32_t backward_bottom_field, int32_t backward_bottom_horizontal, int32_t backward_bottom_vertical,
    uint8_t *out, size_t out_len);

/* ---- the calls over structs
 *
 * They are C and not proved: they pass on what the structs hold, and read the buffers' bytes. Clear a struct
 * before you fill it, so that no field is uninitialized; all zero means no residual, no prediction type and no motion.
 * A reference is absent where its pointer is null, not where its struct is all zero.
 */

/* The predictors PMV[r][s][t]. Set them to zero where a slice starts, and wherever 7.6.3.4 says. */
struct fozdrik_pmv {
    uint8_t bytes[FOZDRIK_PREDICTORS_LENGTH];
};

/* A vector in half samples. */
struct fozdrik_vector {
    int32_t horizontal;
    int32_t vertical;
};

/* What the stream has of a vector. */
struct fozdrik_coded_vector {
    int32_t motion_code_horiz;
    int32_t motion_code_vert;
    uint32_t motion_residual_horiz_present;
    uint32_t motion_residual_vert_present;
    uint8_t motion_residual_horiz;
    uint8_t motion_residual_vert;
};

/* Which vector it is, and what it is read by. */
struct fozdrik_vector_context {
    uint32_t r;                 /* enum fozdrik_vector_index */
    uint32_t s;                 /* enum fozdrik_direction */
    uint32_t mv_format;         /* enum fozdrik_mv_format */
    uint32_t picture_structure; /* enum fozdrik_picture_structure */
    uint8_t f_code_horiz;       /* f_code[s][0] */
    uint8_t f_code_vert;        /* f_code[s][1] */
};

/* What an update goes by. */
struct fozdrik_update_context {
    uint32_t picture_structure; /* enum fozdrik_picture_structure */
    uint32_t prediction_type_present;
    uint32_t prediction_type;   /* enum fozdrik_prediction_type */
    uint32_t macroblock_motion_forward;
    uint32_t macroblock_motion_backward;
    uint32_t macroblock_intra;
    uint32_t concealment_motion_vectors;
};

/* A plane, of the coded size: its samples row after row, without a gap. The length is that of the buffer: were it
 * computed from the sides, a wrong side would be read past the end and not refused. */
struct fozdrik_plane {
    const uint8_t *samples;
    size_t length;
    size_t width;
    size_t height;
};

/* What a picture declares. The format is one of enum fozdrik_chroma_format. */
struct fozdrik_geometry {
    size_t width;
    size_t height;
    uint32_t chroma_format;
};

/* A reference. */
struct fozdrik_frame {
    struct fozdrik_geometry geometry;
    struct fozdrik_plane y;
    struct fozdrik_plane cb;
    struct fozdrik_plane cr;
};

/* The vectors of a frame-based macroblock. A presence is the macroblock's motion flag for that direction. */
struct fozdrik_frame_motion {
    uint32_t forward_present;
    struct fozdrik_vector forward;
    uint32_t backward_present;
    struct fozdrik_vector backward;
};

/* A vector of a field, and the reference's field that it reads: motion_vertical_field_select. */
struct fozdrik_field_vector {
    uint32_t reference_field; /* enum fozdrik_field_parity */
    struct fozdrik_vector vector;
};

/* One direction of a field-based macroblock: for its top field (r = 0) and for its bottom field (r = 1). */
struct fozdrik_field_vector_pair {
    struct fozdrik_field_vector top;
    struct fozdrik_field_vector bottom;
};

/* The vectors of a field-based macroblock. */
struct fozdrik_field_motion {
    uint32_t forward_present;
    struct fozdrik_field_vector_pair forward;
    uint32_t backward_present;
    struct fozdrik_field_vector_pair backward;
};

/* The number in 4 bytes, little-endian, two's complement. */
static inline int32_t fozdrik_number_at(const uint8_t *bytes)
{
    uint32_t u = (uint32_t)bytes[0] | (uint32_t)bytes[1] << 8 | (uint32_t)bytes[2] << 16 | (uint32_t)bytes[3] << 24;

    /* a cast alone is left to the compiler where the number is negative */
    return u <= 0x7fffffffu ? (int32_t)u : -1 - (int32_t)~u;
}

/* Where PMV[r][s][t] is. Only the lowest bit of each counts, so that no number leads past the 32 bytes. */
static inline size_t fozdrik_pmv_place(uint32_t r, uint32_t s, uint32_t t)
{
    return 4u * (4u * (r & 1u) + 2u * (s & 1u) + (t & 1u));
}

/* PMV[r][s][t]. */
static inline int32_t fozdrik_pmv_get(const struct fozdrik_pmv *pmv, uint32_t r, uint32_t s, uint32_t t)
{
    return fozdrik_number_at(pmv->bytes + fozdrik_pmv_place(r, s, t));
}

static inline void fozdrik_pmv_set(struct fozdrik_pmv *pmv, uint32_t r, uint32_t s, uint32_t t, int32_t value)
{
    uint8_t *bytes = pmv->bytes + fozdrik_pmv_place(r, s, t);
    uint32_t u = (uint32_t)value;

    bytes[0] = (uint8_t)(u & 255u);
    bytes[1] = (uint8_t)(u >> 8 & 255u);
    bytes[2] = (uint8_t)(u >> 16 & 255u);
    bytes[3] = (uint8_t)(u >> 24);
}

/* All eight become zero: 7.6.3.4. */
static inline void fozdrik_pmv_reset(struct fozdrik_pmv *pmv)
{
    size_t i;

    for (i = 0; i < FOZDRIK_PREDICTORS_LENGTH; i++) {
        pmv->bytes[i] = 0;
    }
}

/* fozdrik_reconstruct_motion_vector. A refusal leaves *vector as it was. */
static inline uint32_t fozdrik_reconstruct_vector(
    const struct fozdrik_vector_context *context, const struct fozdrik_coded_vector *coded,
    struct fozdrik_pmv *pmv, struct fozdrik_vector *vector)
{
    uint8_t bytes[FOZDRIK_VECTOR_LENGTH];
    uint32_t refusal = fozdrik_reconstruct_motion_vector(
        context->r, context->s,
        coded->motion_code_horiz, coded->motion_residual_horiz_present, coded->motion_residual_horiz,
        coded->motion_code_vert, coded->motion_residual_vert_present, coded->motion_residual_vert,
        context->f_code_horiz, context->f_code_vert,
        context->mv_format, context->picture_structure,
        pmv->bytes, sizeof pmv->bytes, bytes, sizeof bytes);

    if (refusal == FOZDRIK_ACCEPTED) {
        vector->horizontal = fozdrik_number_at(bytes);
        vector->vertical = fozdrik_number_at(bytes + 4);
    }
    return refusal;
}

/* fozdrik_update_predictors. A refusal leaves *outcome as it was, but may store it again. */
static inline uint32_t fozdrik_update_pmv(
    const struct fozdrik_update_context *context, struct fozdrik_pmv *pmv, uint8_t *outcome)
{
    return fozdrik_update_predictors(
        context->picture_structure,
        context->prediction_type_present, context->prediction_type,
        context->macroblock_motion_forward, context->macroblock_motion_backward,
        context->macroblock_intra, context->concealment_motion_vectors,
        pmv->bytes, sizeof pmv->bytes, outcome, FOZDRIK_OUTCOME_LENGTH);
}

/* How many bytes a macroblock has; 0 where the format is unknown. */
static inline size_t fozdrik_macroblock_length(uint32_t chroma_format)
{
    switch (chroma_format) {
    case FOZDRIK_YUV420:
        return FOZDRIK_MACROBLOCK_420;
    case FOZDRIK_YUV422:
        return FOZDRIK_MACROBLOCK_422;
    case FOZDRIK_YUV444:
        return FOZDRIK_MACROBLOCK_444;
    default:
        return 0;
    }
}

/* What the raw calls take for a reference: it, or one of zeros where it is absent. */
static inline const struct fozdrik_frame *fozdrik_frame_or_absent(const struct fozdrik_frame *frame)
{
    static const struct fozdrik_frame absent = {{0, 0, 0}, {NULL, 0, 0, 0}, {NULL, 0, 0, 0}, {NULL, 0, 0, 0}};

    return frame != NULL ? frame : &absent;
}

/* fozdrik_predict_frame_macroblock. A reference that is null is absent. */
static inline uint32_t fozdrik_predict_frame_based(
    const struct fozdrik_geometry *picture, size_t mb_col, size_t mb_row,
    const struct fozdrik_frame *forward, const struct fozdrik_frame *backward,
    const struct fozdrik_frame_motion *motion, uint8_t *out, size_t out_len)
{
    const struct fozdrik_frame *f = fozdrik_frame_or_absent(forward);
    const struct fozdrik_frame *b = fozdrik_frame_or_absent(backward);

    return fozdrik_predict_frame_macroblock(
        picture->width, picture->height, picture->chroma_format, mb_col, mb_row,
        forward != NULL, f->geometry.width, f->geometry.height, f->geometry.chroma_format,
        f->y.width, f->y.height, f->cb.width, f->cb.height, f->cr.width, f->cr.height,
        f->y.samples, f->y.length, f->cb.samples, f->cb.length, f->cr.samples, f->cr.length,
        backward != NULL, b->geometry.width, b->geometry.height, b->geometry.chroma_format,
        b->y.width, b->y.height, b->cb.width, b->cb.height, b->cr.width, b->cr.height,
        b->y.samples, b->y.length, b->cb.samples, b->cb.length, b->cr.samples, b->cr.length,
        motion->forward_present, motion->forward.horizontal, motion->forward.vertical,
        motion->backward_present, motion->backward.horizontal, motion->backward.vertical,
        out, out_len);
}

/* fozdrik_predict_field_macroblock. A reference that is null is absent. */
static inline uint32_t fozdrik_predict_field_based(
    const struct fozdrik_geometry *picture, size_t mb_col, size_t mb_row,
    const struct fozdrik_frame *forward, const struct fozdrik_frame *backward,
    const struct fozdrik_field_motion *motion, uint8_t *out, size_t out_len)
{
    const struct fozdrik_frame *f = fozdrik_frame_or_absent(forward);
    const struct fozdrik_frame *b = fozdrik_frame_or_absent(backward);

    return fozdrik_predict_field_macroblock(
        picture->width, picture->height, picture->chroma_format, mb_col, mb_row,
        forward != NULL, f->geometry.width, f->geometry.height, f->geometry.chroma_format,
        f->y.width, f->y.height, f->cb.width, f->cb.height, f->cr.width, f->cr.height,
        f->y.samples, f->y.length, f->cb.samples, f->cb.length, f->cr.samples, f->cr.length,
        backward != NULL, b->geometry.width, b->geometry.height, b->geometry.chroma_format,
        b->y.width, b->y.height, b->cb.width, b->cb.height, b->cr.width, b->cr.height,
        b->y.samples, b->y.length, b->cb.samples, b->cb.length, b->cr.samples, b->cr.length,
        motion->forward_present,
        motion->forward.top.reference_field,
        motion->forward.top.vector.horizontal, motion->forward.top.vector.vertical,
        motion->forward.bottom.reference_field,
        motion->forward.bottom.vector.horizontal, motion->forward.bottom.vector.vertical,
        motion->backward_present,
        motion->backward.top.reference_field,
        motion->backward.top.vector.horizontal, motion->backward.top.vector.vertical,
        motion->backward.bottom.reference_field,
        motion->backward.bottom.vector.horizontal, motion->backward.bottom.vector.vertical,
        out, out_len);
}

#ifdef __cplusplus
}
#endif

#endif
