/*
 * The fuzzer of the four calls. LLVMFuzzerTestOneInput is what libFuzzer calls, and driver.c where there is none. It
 * draws a case from any bytes (case.c) and makes its call with all buffers right before pages that nobody may touch,
 * then right behind such pages, then as allocations (lent.c), and once more as allocations by way of the header's
 * structs, if these can say it. Each time
 *
 *   - the answer is one that this call can give, and the one that expected.c computes;
 *   - nothing that is only read has changed, nor anything before an allocation;
 *   - a refusal leaves all as it was, but for the one predictor that the header names;
 *   - all bytes are those that expected.c computes, so that equal inputs give equal bytes.
 *
 * Where one of these does not hold, it prints the case and aborts.
 */
#include <stdio.h>
#include <stdlib.h>
#include <string.h>

#include "fuzz.h"
#include "lent.h"
#include "wrong.h"

struct met met;

/* ---- the calls */

static uint32_t call_vector(const struct a_case *c, uint8_t *const at[SLOTS])
{
    const struct part *h = &c->parts[0];
    const struct part *v = &c->parts[1];

    return fozdrik_reconstruct_motion_vector(
        c->r, c->s, h->code, h->residual_present, h->residual, v->code, v->residual_present, v->residual, h->f_code,
        v->f_code, c->mv_format, c->picture_structure, at[PREDICTORS], c->buffers[PREDICTORS].length, at[RESULT],
        c->buffers[RESULT].length);
}

static uint32_t call_update(const struct a_case *c, uint8_t *const at[SLOTS])
{
    const struct fozdrik_update_context *u = &c->update;

    return fozdrik_update_predictors(
        u->picture_structure, u->prediction_type_present, u->prediction_type, u->macroblock_motion_forward,
        u->macroblock_motion_backward, u->macroblock_intra, u->concealment_motion_vectors, at[PREDICTORS],
        c->buffers[PREDICTORS].length, at[RESULT], c->buffers[RESULT].length);
}

/* what the two calls for macroblocks have in common */
#define SAMPLES(slot) at[slot], c->buffers[slot].length
#define REFERENCE(f, slot)                                                                                           \
    (f)->present, (f)->declared.width, (f)->declared.height, (f)->declared.chroma_format, (f)->planes[0].width,      \
        (f)->planes[0].height, (f)->planes[1].width, (f)->planes[1].height, (f)->planes[2].width,                    \
        (f)->planes[2].height, SAMPLES(slot), SAMPLES((slot) + 1), SAMPLES((slot) + 2)
#define PICTURES                                                                                                     \
    c->picture.width, c->picture.height, c->picture.chroma_format, c->column, c->row,                                \
        REFERENCE(&c->references[0], PLANES), REFERENCE(&c->references[1], PLANES + 3)
#define NUMBERS(v) (v).vector.horizontal, (v).vector.vertical

static uint32_t call_frame(const struct a_case *c, uint8_t *const at[SLOTS])
{
    const struct motion *f = &c->motion[0];
    const struct motion *b = &c->motion[1];

    return fozdrik_predict_frame_macroblock(
        PICTURES, f->present, NUMBERS(f->vectors[0]), b->present, NUMBERS(b->vectors[0]), SAMPLES(RESULT));
}

static uint32_t call_field(const struct a_case *c, uint8_t *const at[SLOTS])
{
    const struct motion *f = &c->motion[0];
    const struct motion *b = &c->motion[1];

    return fozdrik_predict_field_macroblock(
        PICTURES, f->present, f->vectors[0].reference_field, NUMBERS(f->vectors[0]), f->vectors[1].reference_field,
        NUMBERS(f->vectors[1]), b->present, b->vectors[0].reference_field, NUMBERS(b->vectors[0]),
        b->vectors[1].reference_field, NUMBERS(b->vectors[1]), SAMPLES(RESULT));
}

static uint32_t call_raw(const struct a_case *c, uint8_t *const at[SLOTS])
{
    static uint32_t (*const calls[CALLS])(const struct a_case *, uint8_t *const[SLOTS]) = {
        call_vector, call_update, call_frame, call_field};

    return calls[c->call](c, at);
}

/* ---- the same over structs */

/* Whether the structs can say it: they have no lengths of what takes a fixed one, and a reference is there or null. */
static int sayable(const struct a_case *c)
{
    if (c->call == FRAME || c->call == FIELD) {
        return c->references[0].present <= 1 && c->references[1].present <= 1;
    }
    return c->buffers[PREDICTORS].length == FOZDRIK_PREDICTORS_LENGTH &&
           c->buffers[RESULT].length == (c->call == VECTOR ? FOZDRIK_VECTOR_LENGTH : FOZDRIK_OUTCOME_LENGTH);
}

static uint32_t vector_over_structs(const struct a_case *c, uint8_t *result, struct fozdrik_pmv *pmv)
{
    struct fozdrik_vector_context context = {
        c->r, c->s, c->mv_format, c->picture_structure, c->parts[0].f_code, c->parts[1].f_code};
    struct fozdrik_coded_vector coded = {
        c->parts[0].code, c->parts[1].code, c->parts[0].residual_present, c->parts[1].residual_present,
        c->parts[0].residual, c->parts[1].residual};
    struct fozdrik_vector vector = {fozdrik_number_at(result), fozdrik_number_at(result + 4)};
    struct fozdrik_pmv bytes;
    uint32_t number = fozdrik_reconstruct_vector(&context, &coded, pmv, &vector);

    fozdrik_pmv_set(&bytes, 0, 0, FOZDRIK_HORIZONTAL, vector.horizontal);
    fozdrik_pmv_set(&bytes, 0, 0, FOZDRIK_VERTICAL, vector.vertical);
    memcpy(result, bytes.bytes, FOZDRIK_VECTOR_LENGTH);
    return number;
}

static const struct fozdrik_frame *frame_over_structs(
    const struct a_case *c, uint8_t *const at[SLOTS], int direction, struct fozdrik_frame *frame)
{
    const struct reference *reference = &c->references[direction];
    struct fozdrik_plane *planes[3];
    int i;

    planes[0] = &frame->y;
    planes[1] = WRONG == CB_AND_CR_EXCHANGED ? &frame->cr : &frame->cb;
    planes[2] = WRONG == CB_AND_CR_EXCHANGED ? &frame->cb : &frame->cr;
    frame->geometry = reference->declared;
    for (i = 0; i < 3; i++) {
        planes[i]->samples = at[plane_slot(direction, i)];
        planes[i]->length = c->buffers[plane_slot(direction, i)].length;
        planes[i]->width = reference->planes[i].width;
        planes[i]->height = reference->planes[i].height;
    }
    return reference->present ? frame : NULL;
}

static uint32_t call_over_structs(const struct a_case *c, uint8_t *const at[SLOTS])
{
    const struct motion *f = &c->motion[0];
    const struct motion *b = &c->motion[1];
    struct fozdrik_frame_motion frame_motion = {
        f->present, f->vectors[0].vector, b->present, b->vectors[0].vector};
    struct fozdrik_field_motion field_motion = {
        f->present, {f->vectors[0], f->vectors[1]}, b->present, {b->vectors[0], b->vectors[1]}};
    struct fozdrik_frame frames[2];
    struct fozdrik_pmv pmv;
    uint32_t number;

    if (c->call == FRAME) {
        return fozdrik_predict_frame_based(
            &c->picture, c->column, c->row, frame_over_structs(c, at, 0, &frames[0]),
            frame_over_structs(c, at, 1, &frames[1]), &frame_motion, SAMPLES(RESULT));
    }
    if (c->call == FIELD) {
        return fozdrik_predict_field_based(
            &c->picture, c->column, c->row, frame_over_structs(c, at, 0, &frames[0]),
            frame_over_structs(c, at, 1, &frames[1]), &field_motion, SAMPLES(RESULT));
    }
    memcpy(pmv.bytes, at[PREDICTORS], sizeof pmv.bytes);
    number = c->call == VECTOR ? vector_over_structs(c, at[RESULT], &pmv)
                               : fozdrik_update_pmv(&c->update, &pmv, at[RESULT]);
    memcpy(at[PREDICTORS], pmv.bytes, sizeof pmv.bytes);
    return number;
}

/* ---- what has to hold */

int possible(enum call call, uint32_t number)
{
    static const uint32_t ranges[CALLS][2] = {{1, 6}, {7, 12}, {13, 18}, {13, 18}};

    return number == 0 || (number >= ranges[call][0] && number <= ranges[call][1]) || number == LAST_NUMBER;
}

static void finding(const struct a_case *c, int form, const char *what)
{
    static const char *const forms[] = {
        "buffers before guards", "buffers behind guards", "allocated buffers", "over structs"};

    fflush(stdout);
    fprintf(stderr, "finding: %s (%s)\n", what, forms[form]);
    describe_case(c);
    abort();
}

/* Whether the predictors are as before, but for the one that a refused vector may have changed. */
static int kept_but_one(const struct a_case *c, const uint8_t *now)
{
    struct fozdrik_pmv then;

    if (c->buffers[PREDICTORS].length != FOZDRIK_PREDICTORS_LENGTH) {
        return 1;
    }
    memcpy(then.bytes, c->buffers[PREDICTORS].bytes, sizeof then.bytes);
    fozdrik_pmv_set(
        &then, c->r, c->s, FOZDRIK_HORIZONTAL, fozdrik_number_at(now + fozdrik_pmv_place(c->r, c->s, 0)));
    return memcmp(then.bytes, now, sizeof then.bytes) == 0;
}

static void check(
    const struct a_case *c, const struct answer *right, uint8_t *const at[SLOTS], uint32_t number, int form)
{
    const uint8_t *predictors = c->buffers[PREDICTORS].bytes;
    char text[80];
    size_t slot;

    if (!possible(c->call, number)) {
        snprintf(text, sizeof text, "the answer is %u, which this call never gives", (unsigned)number);
        finding(c, form, text);
    }
    if (number != right->number) {
        snprintf(text, sizeof text, "the answer is %u and should be %u", (unsigned)number, (unsigned)right->number);
        finding(c, form, text);
    }
    for (slot = PLANES; slot < end_slot(c); slot++) {
        if (!holds(c, at, slot, c->buffers[slot].bytes)) {
            finding(c, form, "a plane was changed");
        }
    }
    if (number != 0 && !holds(c, at, RESULT, c->buffers[RESULT].bytes)) {
        finding(c, form, "a refusal has changed the result");
    }
    if (number != 0 && first_slot(c) == PREDICTORS && !holds(c, at, PREDICTORS, predictors) &&
        (c->call != VECTOR || number == LAST_NUMBER || !kept_but_one(c, at[PREDICTORS]))) {
        finding(c, form, "a refusal has changed the predictors");
    }
    if (number == 0 && !holds(c, at, RESULT, right->result)) {
        finding(c, form, "the result is not the right one");
    }
    if (first_slot(c) == PREDICTORS && c->buffers[PREDICTORS].length == FOZDRIK_PREDICTORS_LENGTH) {
        predictors = right->predictors;
    }
    if (first_slot(c) == PREDICTORS && !holds(c, at, PREDICTORS, predictors)) {
        finding(c, form, "the predictors are not the right ones");
    }
}

static void add(const uint8_t *bytes, size_t length)
{
    size_t i;

    for (i = 0; i < length; i++) {
        met.checksum = (met.checksum ^ bytes[i]) * 0x100000001b3u;
    }
}

/* Adds what the call has left in the buffers; of long ones the first bytes. */
static void add_buffers(const struct a_case *c, uint8_t *const at[SLOTS], uint32_t number)
{
    uint8_t byte = (uint8_t)number;
    size_t slot;

    add(&byte, 1);
    for (slot = first_slot(c); slot < end_slot(c); slot++) {
        add(at[slot], c->buffers[slot].length > FOZDRIK_MACROBLOCK_444 ? 64 : c->buffers[slot].length);
    }
}

static void count(const struct a_case *c, const struct answer *right)
{
    met.answers[c->call][right->number]++;
    if ((c->call == FRAME || c->call == FIELD) && right->number == 0) {
        met.formats[c->call][c->picture.chroma_format]++;
        met.directions[c->call][c->motion[0].present][c->motion[1].present]++;
        met.places[c->call][luminance_place(c)]++;
    }
}

int LLVMFuzzerTestOneInput(const uint8_t *bytes, size_t length)
{
    static struct a_case c;
    static struct answer right;
    static const enum placement placements[] = {BEFORE_A_GUARD, BEHIND_A_GUARD, ALLOCATED, ALLOCATED};
    uint8_t *at[SLOTS];
    uint32_t number;
    int form;

    draw_case(&c, bytes, length);
    expect(&c, &right);
    for (form = 0; form < (sayable(&c) ? 4 : 3); form++) {
        lend(&c, placements[form], at);
        met.calls++;
        number = form < 3 ? call_raw(&c, at) : call_over_structs(&c, at);
#if WRONG
        number = made_wrong(&c, at, placements[form], number);
#endif
        check(&c, &right, at, number, form);
        if (placements[form] == BEHIND_A_GUARD) {
            add_buffers(&c, at, number);
        }
        if (!take_back(&c, placements[form], at)) {
            finding(&c, form, "bytes before a buffer were changed");
        }
    }
    count(&c, &right);
    return 0;
}
