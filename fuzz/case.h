/*
 * A case: what C passes to one of the four calls. The kinds are any numbers, and the buffers have any length; all that
 * the header asks of a caller holds.
 */
#ifndef CASE_H
#define CASE_H

#include "fozdrik.h"

enum call { VECTOR, UPDATE, FRAME, FIELD, CALLS };

/* The buffers. A vector and an update have the first two, a macroblock all but the first. */
enum { PREDICTORS, RESULT, PLANES, SLOTS = PLANES + 6 };

/* A buffer has at most LARGEST bytes; or VAST and up to LARGEST more, all zero, so that its length is another one in
 * 32 bits. */
enum { LARGEST = 1 << 16 };
#define VAST ((size_t)1 << 32)

struct buffer {
    const uint8_t *bytes; /* what is in it before the call, unless it is vast */
    size_t length;
    size_t whole; /* the slot of the buffer that it is a part of, mostly its own */
    size_t start; /* and where it starts there */
};

/* What the stream has of a component of a vector. */
struct part {
    int32_t code;
    uint32_t residual_present;
    uint8_t residual;
    uint8_t f_code;
};

struct sides {
    size_t width;
    size_t height;
};

struct reference {
    uint32_t present;
    struct fozdrik_geometry declared;
    struct sides planes[3]; /* Y, Cb, Cr; their samples are in the slots */
};

/* A direction. Only the first vector counts where prediction is frame-based, and no field. */
struct motion {
    uint32_t present;
    struct fozdrik_field_vector vectors[2];
};

struct a_case {
    enum call call;
    struct buffer buffers[SLOTS];
    size_t odd; /* how far an allocated buffer lies behind an aligned address */
    /* a vector */
    uint32_t r;
    uint32_t s;
    uint32_t mv_format;
    uint32_t picture_structure; /* and of an update */
    struct part parts[2];       /* horizontal, vertical */
    /* an update */
    struct fozdrik_update_context update;
    /* a macroblock */
    struct fozdrik_geometry picture;
    size_t column;
    size_t row;
    struct reference references[2]; /* forward, backward */
    struct motion motion[2];
};

/* Makes a case of these bytes, whatever they are. Where they end, zeros follow. */
void draw_case(struct a_case *c, const uint8_t *bytes, size_t length);

/* Prints it to the standard error. */
void describe_case(const struct a_case *c);

extern const char *const call_names[CALLS];

/* The slot of a plane: of the forward or the backward reference, Y, Cb or Cr. */
static inline size_t plane_slot(int direction, int component)
{
    return (size_t)(PLANES + 3 * direction + component);
}

/* What the call is lent of the slots: the first one, and the one behind the last. */
static inline size_t first_slot(const struct a_case *c)
{
    return c->call == VECTOR || c->call == UPDATE ? PREDICTORS : RESULT;
}

static inline size_t end_slot(const struct a_case *c)
{
    return c->call == VECTOR || c->call == UPDATE ? PLANES : SLOTS;
}

#endif
