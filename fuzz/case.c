/*
 * Drawing a case out of bytes. Most numbers come out right, so that the calls get far; the others are neighbours of
 * the right ones, numbers that are right in their lowest bits alone, the ends of their types, and any at all.
 *
 * C leaves it to the compiler which argument or operand comes first, and a case has to be the same by every compiler: no
 * expression here takes bytes twice, unless it says the order, as ?: and && do.
 */
#include <inttypes.h>
#include <stdio.h>
#include <string.h>

#include "case.h"

const char *const call_names[CALLS] = {"vector", "update", "frame", "field"};

/* ---- numbers */

static const uint8_t *next;
static size_t left;

/* So many bytes, the lowest first. */
static uint64_t take(int count)
{
    uint64_t number = 0;
    int i;

    for (i = 0; i < count && left > 0; i++) {
        number |= (uint64_t)*next << 8 * i;
        next++;
        left--;
    }
    return number;
}

static int once_in(uint64_t n)
{
    return take(1) >= 256 - 256 / n;
}

static int32_t as_signed(uint64_t number)
{
    uint32_t u = (uint32_t)number;

    return u <= INT32_MAX ? (int32_t)u : -1 - (int32_t)~u;
}

/* A kind that has so many meanings. */
static uint32_t kind(uint32_t meanings)
{
    uint32_t byte = (uint32_t)take(1);
    uint32_t bit;

    switch (byte) {
    case 252:
        return meanings;
    case 253:
        bit = 1u << (8 + take(1) % 24);
        return bit + (uint32_t)take(1) % meanings;
    case 254:
        return UINT32_MAX - (uint32_t)take(1) % 4;
    case 255:
        return (uint32_t)take(4);
    default:
        return byte % meanings;
    }
}

static uint32_t mostly(uint32_t presence)
{
    return once_in(8) ? kind(2) : presence;
}

/* Any size: near a limit of the calls or of a type, or anything. */
static size_t any_size(void)
{
    static const size_t limits[] = {
        1, 8, 1024, 16384, 16385, (size_t)1 << 16, (size_t)1 << 28, (size_t)1 << 31, VAST, VAST + 32, (size_t)1 << 59,
        (size_t)1 << 60, (size_t)1 << 63, SIZE_MAX};
    uint64_t byte = take(1);

    if (byte >= 224) {
        return (size_t)take(8);
    }
    return limits[byte % (sizeof limits / sizeof limits[0])] + (size_t)take(1) % 3 - 1;
}

/* A component of a vector, in half samples. It moves a block at a position mostly into a plane of a side, or near it. */
static int32_t component(size_t position, size_t side)
{
    uint64_t byte = take(1);

    if (byte < 96) {
        return (int32_t)take(1) % 64 - 32;
    }
    if (byte < 208) {
        return (int32_t)(take(2) % (2 * (side % 64) + 40)) - 40 - 2 * (int32_t)(position % 1024);
    }
    if (byte < 224) {
        return (int32_t)take(2) - 32768;
    }
    return byte < 240 ? as_signed((uint64_t)INT32_MAX - 64 + take(1) % 128) : as_signed(take(4));
}

/* ---- buffers */

static uint8_t contents[SLOTS][LARGEST];

/* Bytes that are drawn anew for each slot. Every second time they are 0 and 255 alone. */
static void fill(uint8_t *bytes, size_t length, uint64_t seed)
{
    uint64_t state = seed * 0x9e3779b97f4a7c15u + 0x2545f4914f6cdd1du;
    uint64_t ends = 0 - (seed & 1);
    size_t i;

    for (i = 0; i < length; i++) {
        if (i % 8 == 0) {
            state ^= state << 13;
            state ^= state >> 7;
            state ^= state << 17;
        }
        bytes[i] = (uint8_t)(state >> i % 8 * 8);
        bytes[i] = (uint8_t)((bytes[i] & ~ends) | ((0u - (bytes[i] & 1u)) & ends));
    }
}

static void set_buffer(struct a_case *c, size_t slot, size_t length, uint64_t seed)
{
    struct buffer buffer = {contents[slot], length, slot, 0};

    if (length <= LARGEST) {
        fill(contents[slot], length, seed + slot * 2);
    }
    c->buffers[slot] = buffer;
}

/* The right length, or another. */
static size_t length_like(size_t right)
{
    switch (take(1)) {
    case 248:
        return FOZDRIK_MACROBLOCK_420;
    case 249:
        return FOZDRIK_MACROBLOCK_422;
    case 250:
        return FOZDRIK_MACROBLOCK_444;
    case 251:
        return VAST + right;
    case 252:
        return 0;
    case 253:
        return right == 0 ? 1 : right - 1;
    case 254:
        return right + 1;
    case 255:
        return (size_t)take(2) % 1024;
    default:
        return right;
    }
}

static void draw_buffer(struct a_case *c, size_t slot, size_t right)
{
    size_t length = length_like(right);

    set_buffer(c, slot, length, take(2));
}

/* ---- vectors and updates */

static void draw_part(struct part *part)
{
    uint64_t byte = take(1);

    part->f_code = byte < 240 ? (uint8_t)(1 + byte % 9) : (uint8_t)take(1);
    byte = take(1);
    part->code = byte < 231 ? (int32_t)(byte % 33) - 16 : byte < 248 ? (int32_t)take(1) - 128 : as_signed(take(4));
    part->residual_present = mostly(part->f_code != 1 && part->code != 0);
    part->residual = (uint8_t)(once_in(8) ? take(1) : take(1) % ((uint64_t)1 << (part->f_code - 1) % 9u));
}

/* A predictor: mostly from -64f to 64f - 1, while up to 48f on either side can be answered. */
static int32_t draw_prior(const struct part *part)
{
    int32_t reach = 64 << (part->f_code - 1) % 9u;

    if (once_in(16)) {
        return as_signed((uint64_t)INT32_MAX - 64 + take(1) % 128);
    }
    return once_in(16) ? as_signed(take(4)) : (int32_t)take(2) % (2 * reach) - reach;
}

static void draw_predictors(struct a_case *c)
{
    struct fozdrik_pmv pmv;
    uint32_t t;

    draw_buffer(c, PREDICTORS, FOZDRIK_PREDICTORS_LENGTH);
    memcpy(pmv.bytes, contents[PREDICTORS], sizeof pmv.bytes);
    for (t = 0; t < 2 && c->call == VECTOR; t++) {
        fozdrik_pmv_set(&pmv, c->r, c->s, t, draw_prior(&c->parts[t]));
    }
    memcpy(contents[PREDICTORS], pmv.bytes, sizeof pmv.bytes);
}

static void draw_vector(struct a_case *c)
{
    c->r = kind(2);
    c->s = kind(2);
    draw_part(&c->parts[0]);
    draw_part(&c->parts[1]);
    c->mv_format = kind(2);
    c->picture_structure = kind(3);
    draw_predictors(c);
    draw_buffer(c, RESULT, FOZDRIK_VECTOR_LENGTH);
}

static void draw_update(struct a_case *c)
{
    struct fozdrik_update_context *update = &c->update;

    update->picture_structure = kind(3);
    update->prediction_type_present = mostly(1);
    update->prediction_type = update->prediction_type_present == 0 ? (uint32_t)take(4) : kind(4);
    update->macroblock_motion_forward = kind(2);
    update->macroblock_motion_backward = kind(2);
    update->macroblock_intra = mostly(0);
    update->concealment_motion_vectors = kind(2);
    draw_predictors(c);
    draw_buffer(c, RESULT, FOZDRIK_OUTCOME_LENGTH);
}

/* ---- macroblocks */

static size_t cell(void)
{
    uint64_t byte = take(1);

    return byte < 208 ? (size_t)byte % 3 : byte < 244 ? (size_t)byte % 8 : any_size();
}

/* Of a plane: mostly there is room for a block of 16 samples and a half. */
static size_t side(void)
{
    uint64_t byte = take(1);

    return byte < 192 ? 17 + (size_t)byte % 48 : (size_t)byte % 64;
}

/* Another number that times this odd one is the product, in 64 bits. */
static uint64_t wrapping_factor(uint64_t odd, uint64_t product)
{
    uint64_t inverse = odd;
    int i;

    for (i = 0; i < 5; i++) {
        inverse *= 2 - odd * inverse;
    }
    return inverse * product;
}

/* Sides of a plane, mostly these, and a length, mostly the right one. */
static size_t draw_plane(struct sides *plane, size_t width, size_t height)
{
    size_t swap;

    plane->width = width;
    plane->height = height;
    switch (take(1)) {
    case 249: /* any sides; few bytes */
        plane->width = any_size();
        plane->height = any_size();
        return (size_t)take(1);
    case 250: /* sides whose product is right in 64 bits alone */
        plane->width = any_size() | 1;
        plane->height = (size_t)wrapping_factor(plane->width, width);
        return width;
    case 251: /* a long plane, at the largest side or over it, with few lines or none */
        plane->width = 16383 + (size_t)take(1) % 3;
        plane->height = (size_t)take(1) % 4;
        if (once_in(2)) {
            swap = plane->width;
            plane->width = plane->height;
            plane->height = swap;
        }
        break;
    case 252: /* few columns or lines, or none */
        plane->width = (size_t)take(1) % 4;
        break;
    case 253:
        plane->height = (size_t)take(1) % 4;
        break;
    case 254: /* another length */
        return length_like(width * height);
    case 255:
        return width * height + 1 - (size_t)take(1) % 2 * 2;
    default:
        break;
    }
    return plane->width * plane->height;
}

static void draw_declared(struct fozdrik_geometry *declared, const struct fozdrik_geometry *picture)
{
    *declared = *picture;
    switch (take(1)) {
    case 250:
        declared->width += VAST;
        break;
    case 251:
        declared->width ^= 1;
        break;
    case 252:
        declared->height ^= 1;
        break;
    case 253:
        declared->height += VAST;
        break;
    case 254:
        declared->chroma_format = kind(3);
        break;
    case 255:
        declared->width = any_size();
        declared->height = any_size();
        break;
    default:
        break;
    }
}

/* What is beside an absence is drawn too; its buffers are there. */
static void draw_reference(struct a_case *c, int direction)
{
    struct reference *reference = &c->references[direction];
    size_t width = side();
    size_t height = side();
    uint64_t seed = take(2);
    size_t slot;
    size_t length;
    int i;

    reference->present = mostly(1);
    draw_declared(&reference->declared, &c->picture);
    if (reference->present == 0 && once_in(2)) {
        reference->declared.chroma_format = (uint32_t)take(4);
    }
    for (i = 0; i < 3; i++) {
        slot = plane_slot(direction, i);
        length = i == 0 ? draw_plane(&reference->planes[i], width, height)
                        : draw_plane(&reference->planes[i], c->picture.chroma_format < 2 ? width / 2 : width,
                                     c->picture.chroma_format < 1 ? height / 2 : height);
        /* sides that ask for more bytes than there are get none */
        set_buffer(c, slot, length > LARGEST && length - VAST > LARGEST ? 0 : length, seed);
        if (i > 0 && once_in(16) && c->buffers[slot].length <= c->buffers[slot - (size_t)i].length &&
            c->buffers[slot - (size_t)i].length <= LARGEST) {
            /* a part of the luminance's bytes */
            c->buffers[slot].whole = slot - (size_t)i;
            c->buffers[slot].start = c->buffers[slot - (size_t)i].length - c->buffers[slot].length;
            c->buffers[slot].bytes = c->buffers[slot - (size_t)i].bytes + c->buffers[slot].start;
        }
    }
}

static void draw_macroblock(struct a_case *c)
{
    static const size_t lengths[] = {FOZDRIK_MACROBLOCK_420, FOZDRIK_MACROBLOCK_422, FOZDRIK_MACROBLOCK_444};
    size_t lines = c->call == FIELD ? 2 : 1; /* a field has every second one */
    int i;
    int j;

    c->picture.chroma_format = kind(3);
    c->picture.width = once_in(16) ? any_size() : (size_t)take(1);
    c->picture.height = once_in(16) ? any_size() : (size_t)take(1);
    c->column = cell();
    c->row = cell();
    draw_buffer(c, RESULT, lengths[c->picture.chroma_format % 3]);
    draw_reference(c, FOZDRIK_FORWARD);
    if (once_in(16)) {
        /* one picture is both references */
        c->references[1] = c->references[0];
        for (i = 0; i < 3; i++) {
            c->buffers[plane_slot(1, i)] = c->buffers[plane_slot(0, i)];
        }
    } else {
        draw_reference(c, FOZDRIK_BACKWARD);
    }
    for (i = 0; i < 2; i++) {
        const struct sides *plane = &c->references[i].planes[0];

        c->motion[i].present = kind(2);
        for (j = 0; j < 2; j++) {
            struct fozdrik_field_vector *moved = &c->motion[i].vectors[j];

            moved->reference_field = c->motion[i].present == 0 ? (uint32_t)take(4) : kind(2);
            moved->vector.horizontal = component(16 * c->column, plane->width);
            moved->vector.vertical = component(16 / lines * c->row, plane->height / lines);
        }
    }
}

void draw_case(struct a_case *c, const uint8_t *bytes, size_t length)
{
    next = bytes;
    left = length;
    memset(c, 0, sizeof *c);
    c->call = (enum call)(take(1) % CALLS);
    c->odd = (size_t)take(1) % 16;
    switch (c->call) {
    case VECTOR:
        draw_vector(c);
        break;
    case UPDATE:
        draw_update(c);
        break;
    default:
        draw_macroblock(c);
        break;
    }
}

/* ---- showing it */

static void say(const char *name, uint64_t number)
{
    fprintf(stderr, "  %s %" PRIu64, name, number);
}

static void say_bytes(const char *name, const struct buffer *buffer)
{
    size_t i;

    fprintf(stderr, "  %s, %zu bytes:", name, buffer->length);
    for (i = 0; i < buffer->length && i < FOZDRIK_PREDICTORS_LENGTH; i++) {
        fprintf(stderr, " %d", buffer->length > LARGEST ? 0 : buffer->bytes[i]);
    }
    fprintf(stderr, "%s\n", i < buffer->length ? " .." : "");
}

static void describe_reference(const struct a_case *c, int direction)
{
    static const char *const names[] = {"y", "cb", "cr"};
    const struct reference *reference = &c->references[direction];
    const struct motion *motion = &c->motion[direction];
    int i;

    fprintf(stderr, " %s:", direction == FOZDRIK_FORWARD ? "forward" : "backward");
    say("present", reference->present);
    say("width", reference->declared.width);
    say("height", reference->declared.height);
    say("format", reference->declared.chroma_format);
    say("motion", motion->present);
    for (i = 0; i < (c->call == FIELD ? 2 : 1); i++) {
        if (c->call == FIELD) {
            say("field", motion->vectors[i].reference_field);
        }
        fprintf(stderr, "  (%" PRId32 ", %" PRId32 ")", motion->vectors[i].vector.horizontal,
                motion->vectors[i].vector.vertical);
    }
    fprintf(stderr, "\n");
    for (i = 0; i < 3; i++) {
        fprintf(stderr, "  %s", names[i]);
        say("width", reference->planes[i].width);
        say("height", reference->planes[i].height);
        say_bytes("samples", &c->buffers[plane_slot(direction, i)]);
    }
}

void describe_case(const struct a_case *c)
{
    int i;

    fprintf(stderr, "the %s call:", call_names[c->call]);
    switch (c->call) {
    case VECTOR:
        say("r", c->r);
        say("s", c->s);
        for (i = 0; i < 2; i++) {
            fprintf(stderr, "  %s: code %" PRId32, i == 0 ? "horizontal" : "vertical", c->parts[i].code);
            say("residual present", c->parts[i].residual_present);
            say("residual", c->parts[i].residual);
            say("f_code", c->parts[i].f_code);
        }
        say("mv_format", c->mv_format);
        say("picture_structure", c->picture_structure);
        break;
    case UPDATE:
        say("picture_structure", c->update.picture_structure);
        say("type present", c->update.prediction_type_present);
        say("type", c->update.prediction_type);
        say("forward", c->update.macroblock_motion_forward);
        say("backward", c->update.macroblock_motion_backward);
        say("intra", c->update.macroblock_intra);
        say("concealment", c->update.concealment_motion_vectors);
        break;
    default:
        say("width", c->picture.width);
        say("height", c->picture.height);
        say("format", c->picture.chroma_format);
        say("column", c->column);
        say("row", c->row);
        fprintf(stderr, "\n");
        describe_reference(c, FOZDRIK_FORWARD);
        describe_reference(c, FOZDRIK_BACKWARD);
        break;
    }
    fprintf(stderr, "\n");
    if (first_slot(c) == PREDICTORS) {
        say_bytes("predictors", &c->buffers[PREDICTORS]);
    }
    say_bytes("result", &c->buffers[RESULT]);
}
