/*
 * A moving picture through the four calls. Picture 0 is drawn: a car with a number plate in a tunnel. The 24 pictures
 * after it are predicted: each with an even number is a P picture, from the even one before, and each with an odd
 * number a B picture, from its two neighbours. The vectors go the way of a stream: each is coded as a difference from
 * its predictor, and reconstructed from the codes. No residual is added, so that every sample is a prediction.
 *
 * All of it is done twice, with the right vectors and with every vector half a sample off. The luminance of both is
 * shown in one grey picture (PGM), which goes to the file that the argument names:
 *
 *     picture 0    picture 13, a B picture    picture 24, a P picture
 *     the same with every vector half a sample off
 *
 * expected_moving_picture.txt is what it has to print. C99, and C++ too.
 */
#include <stdio.h>
#include <string.h>

#include "fozdrik.h"

enum {
    COLUMNS = 15,
    ROWS = 10,
    WIDTH = 16 * COLUMNS,
    HEIGHT = 16 * ROWS,
    CHROMA_WIDTH = WIDTH / 2,
    CHROMA_HEIGHT = HEIGHT / 2,
    PICTURE_BYTES = WIDTH * HEIGHT + 2 * CHROMA_WIDTH * CHROMA_HEIGHT,
    PICTURES = 25,
    NONE = -1, /* in place of a picture's number */
    F_CODE = 2 /* of both directions and components: vectors of -32 to 31 half samples, and a residual beside a code */
};

/* A plane that is written, unlike struct fozdrik_plane. */
struct plane {
    uint8_t *samples;
    size_t length;
    size_t width;
    size_t height;
};

struct picture {
    struct fozdrik_geometry geometry;
    struct plane y;
    struct plane cb;
    struct plane cr;
};

/* ---- the scene */

struct colour {
    uint8_t y;
    uint8_t cb;
    uint8_t cr;
};

enum {
    CAR_LEFT = 16, /* in picture 0 */
    CAR_TOP = 60,
    CAR_WIDTH = 144,
    CAR_HEIGHT = 76,
    CAR_HALF_SAMPLES_RIGHT = 5, /* from each picture to the next */
    CAR_HALF_SAMPLES_UP = 2,    /* even: whole lines, which fields can follow as well as frames */
    PLATE_LEFT = 16,            /* in the car */
    PLATE_TOP = 42,
    PLATE_WIDTH = 112,
    PLATE_HEIGHT = 24,
    GLYPH_WIDTH = 5,
    GLYPH_HEIGHT = 7,
    GLYPH_SCALE = 2, /* samples to a dot */
    GLYPH_ADVANCE = (GLYPH_WIDTH + 1) * GLYPH_SCALE
};

static const char plate_text[] = "FZ 13818";

struct glyph {
    char letter;
    char dots[GLYPH_HEIGHT][GLYPH_WIDTH + 1];
};

static const struct glyph glyphs[] = {
    {'F', {"#####", "#....", "#....", "####.", "#....", "#....", "#...."}},
    {'Z', {"#####", "....#", "...#.", "..#..", ".#...", "#....", "#####"}},
    {'1', {"..#..", ".##..", "..#..", "..#..", "..#..", "..#..", ".###."}},
    {'3', {".###.", "#...#", "....#", "..##.", "....#", "#...#", ".###."}},
    {'8', {".###.", "#...#", "#...#", ".###.", "#...#", "#...#", ".###."}},
};

static struct colour colour(int y, int cb, int cr)
{
    struct colour result;

    result.y = (uint8_t)y;
    result.cb = (uint8_t)cb;
    result.cr = (uint8_t)cr;
    return result;
}

static int inside(int x, int y, int left, int top, int width, int height)
{
    return x >= left && x < left + width && y >= top && y < top + height;
}

/* Whether dot (x, y) of the plate's text is black, counted in samples from the text's corner. */
static int letter_at(int x, int y)
{
    size_t i;
    int place = x / GLYPH_ADVANCE;
    int column = x % GLYPH_ADVANCE / GLYPH_SCALE;
    int row = y / GLYPH_SCALE;

    if (x < 0 || y < 0 || place >= (int)sizeof plate_text - 1 || column >= GLYPH_WIDTH || row >= GLYPH_HEIGHT) {
        return 0;
    }
    for (i = 0; i < sizeof glyphs / sizeof glyphs[0]; i++) {
        if (glyphs[i].letter == plate_text[place]) {
            return glyphs[i].dots[row][column] == '#';
        }
    }
    return 0; /* a space */
}

static struct colour plate_at(int x, int y)
{
    int text_width = ((int)sizeof plate_text - 1) * GLYPH_ADVANCE - GLYPH_SCALE;
    int text_height = GLYPH_HEIGHT * GLYPH_SCALE;

    if (!inside(x, y, 1, 1, PLATE_WIDTH - 2, PLATE_HEIGHT - 2)) {
        return colour(40, 128, 128);
    }
    if (letter_at(x - (PLATE_WIDTH - text_width) / 2, y - (PLATE_HEIGHT - text_height) / 2)) {
        return colour(24, 128, 128);
    }
    return colour(224, 90, 140);
}

/* The car from behind; x and y count from its corner. */
static struct colour car_at(int x, int y)
{
    int from_side = x < CAR_WIDTH / 2 ? x : CAR_WIDTH - 1 - x;

    if (inside(x, y, PLATE_LEFT, PLATE_TOP, PLATE_WIDTH, PLATE_HEIGHT)) {
        return plate_at(x - PLATE_LEFT, y - PLATE_TOP);
    }
    if (inside(from_side, y, 4, 28, 22, 9)) {
        return colour(150, 100, 210); /* a rear light */
    }
    if (y > 3 && y < 24 && from_side > 20 - y / 2) {
        return colour(44 + y, 132, 124); /* the window */
    }
    if (y >= CAR_HEIGHT - 8) {
        return colour(30, 128, 128); /* a tyre */
    }
    return colour(84 + (y < 24 ? y : 48 - y / 2), 144, 112);
}

static int is_car(int x, int y)
{
    int from_side = x < CAR_WIDTH / 2 ? x : CAR_WIDTH - 1 - x;

    if (y < 24) {
        return from_side >= 16 - 2 * y / 3; /* the roof is narrower */
    }
    return y < CAR_HEIGHT - 8 || (from_side >= 8 && from_side < 28); /* the tyres are below the body */
}

/* A number that looks like chance, for a texture that is the same everywhere. */
static uint32_t scatter(int x, int y)
{
    uint32_t mixed = (uint32_t)x * 0x9e3779b1u ^ (uint32_t)y * 0x85ebca77u;

    mixed = (mixed ^ mixed >> 15) * 0x2c1b3c6du;
    mixed = (mixed ^ mixed >> 12) * 0x297a2d39u;
    return mixed ^ mixed >> 15;
}

/* A wall of tiles with lamps, the road, and a line of dashes. */
static struct colour tunnel_at(int x, int y)
{
    int tile_x = (x + y / 8 % 2 * 8) % 16;

    if (y < 32) {
        if (inside(x % 60, y, 15, 4, 30, 5)) {
            return colour(230, 120, 132);
        }
        return tile_x == 0 || y % 8 == 0 ? colour(92, 128, 128) : colour(132 - y, 124, 134);
    }
    if (inside(x % 48, y, 8, 148, 28, 5)) {
        return colour(210, 128, 128);
    }
    return scatter(x, y) % 6 == 0 ? colour(84, 128, 128) : colour(68, 128, 128);
}

static int car_left(int number)
{
    return CAR_LEFT + number * CAR_HALF_SAMPLES_RIGHT / 2;
}

static int car_top(int number)
{
    return CAR_TOP - number * CAR_HALF_SAMPLES_UP / 2;
}

/* What a camera would see at sample (x, y) of the picture. */
static struct colour scene_at(int number, int x, int y)
{
    int car_x = x - car_left(number);
    int car_y = y - car_top(number);

    if (inside(car_x, car_y, 0, 0, CAR_WIDTH, CAR_HEIGHT) && is_car(car_x, car_y)) {
        return car_at(car_x, car_y);
    }
    return tunnel_at(x, y);
}

static void draw(struct picture *picture, int number)
{
    int x, y;

    for (y = 0; y < HEIGHT; y++) {
        for (x = 0; x < WIDTH; x++) {
            picture->y.samples[y * WIDTH + x] = scene_at(number, x, y).y;
        }
    }
    for (y = 0; y < CHROMA_HEIGHT; y++) {
        for (x = 0; x < CHROMA_WIDTH; x++) {
            picture->cb.samples[y * CHROMA_WIDTH + x] = scene_at(number, 2 * x, 2 * y).cb;
            picture->cr.samples[y * CHROMA_WIDTH + x] = scene_at(number, 2 * x, 2 * y).cr;
        }
    }
}

/* ---- placing
 *
 * The library has four functions for C, and placing is none of them: where the bytes of a macroblock go is the caller's
 * business. In Rattle it is place_macroblock of inter_reconstruction (docs/PROOFS.md). This is the same in plain C,
 * which nothing proves: for any of the three formats, with the same refusals in the same order, after 38 for another.
 */

enum { LARGEST_SIDE = 16384, ILL_FORMED = 20 };

static int outside_domain(const struct plane *plane)
{
    return plane->width > LARGEST_SIDE || plane->height > LARGEST_SIDE
        || plane->length != plane->width * plane->height;
}

static int sides_are(const struct plane *plane, size_t width, size_t height)
{
    return plane->width == width && plane->height == height;
}

static int whole_side(size_t side)
{
    return side != 0 && side % 16 == 0;
}

/* By how much the chrominance planes have fewer columns and lines. */
static size_t columns_divisor(uint32_t chroma_format)
{
    return chroma_format == FOZDRIK_YUV444 ? 1 : 2;
}

static size_t lines_divisor(uint32_t chroma_format)
{
    return chroma_format == FOZDRIK_YUV420 ? 2 : 1;
}

static int well_formed(const struct picture *picture)
{
    const struct fozdrik_geometry *g = &picture->geometry;
    size_t chroma_width = g->width / columns_divisor(g->chroma_format);
    size_t chroma_height = g->height / lines_divisor(g->chroma_format);

    return whole_side(g->width) && whole_side(g->height) && sides_are(&picture->y, g->width, g->height)
        && sides_are(&picture->cb, chroma_width, chroma_height) && sides_are(&picture->cr, chroma_width, chroma_height);
}

static void place_block(const uint8_t *block, size_t columns, size_t lines, size_t mb_col, size_t mb_row,
                        const struct plane *plane)
{
    uint8_t *corner = plane->samples + mb_row * lines * plane->width + mb_col * columns;
    size_t line;

    for (line = 0; line < lines; line++) {
        memcpy(corner + line * plane->width, block + line * columns, columns);
    }
}

/* 0, or the number of a refusal, which writes nothing. */
static uint32_t place_macroblock(const struct picture *picture, size_t mb_col, size_t mb_row, const uint8_t *bytes,
                                 size_t length)
{
    const struct fozdrik_geometry *g = &picture->geometry;
    size_t columns = 16 / columns_divisor(g->chroma_format);
    size_t lines = 16 / lines_divisor(g->chroma_format);

    if (g->chroma_format > FOZDRIK_YUV444) {
        return FOZDRIK_NO_MEANING;
    }
    if (g->width > LARGEST_SIDE || g->height > LARGEST_SIDE || outside_domain(&picture->y)
        || outside_domain(&picture->cb) || outside_domain(&picture->cr)) {
        return FOZDRIK_OUTSIDE_DOMAIN;
    }
    if (!well_formed(picture) || mb_col >= g->width / 16 || mb_row >= g->height / 16) {
        return ILL_FORMED;
    }
    if (length != fozdrik_macroblock_length(g->chroma_format)) {
        return FOZDRIK_WRONG_LENGTH;
    }
    place_block(bytes, 16, 16, mb_col, mb_row, &picture->y);
    place_block(bytes + 256, columns, lines, mb_col, mb_row, &picture->cb);
    place_block(bytes + 256 + columns * lines, columns, lines, mb_col, mb_row, &picture->cr);
    return FOZDRIK_ACCEPTED;
}

/* ---- the sender's side: the codes of a wanted vector */

/* Half of it, rounded down. */
static int32_t floored_half(int32_t number)
{
    return number >= 0 ? number / 2 : -((1 - number) / 2);
}

/* Code and residual of one component. The difference is taken into the range of the f_code, as 32 f more or less is the
 * same to the receiver, whose sum wraps. */
static void code_component(int32_t wanted, int32_t prediction, int32_t *code, uint32_t *residual_present,
                           uint8_t *residual)
{
    int32_t f = 1 << (F_CODE - 1);
    int32_t difference = wanted - prediction;
    int32_t magnitude;

    if (difference < -16 * f) {
        difference += 32 * f;
    } else if (difference > 16 * f - 1) {
        difference -= 32 * f;
    }
    magnitude = difference < 0 ? -difference : difference;
    if (f == 1 || difference == 0) {
        *code = difference;
        *residual_present = FOZDRIK_NO;
        *residual = 0;
        return;
    }
    *code = (magnitude - 1) / f + 1;
    if (difference < 0) {
        *code = -*code;
    }
    *residual_present = FOZDRIK_YES;
    *residual = (uint8_t)((magnitude - 1) % f);
}

static struct fozdrik_coded_vector code_vector(const struct fozdrik_vector_context *context,
                                               const struct fozdrik_pmv *pmv, struct fozdrik_vector wanted)
{
    struct fozdrik_coded_vector coded;
    int32_t horizontal = fozdrik_pmv_get(pmv, context->r, context->s, FOZDRIK_HORIZONTAL);
    int32_t vertical = fozdrik_pmv_get(pmv, context->r, context->s, FOZDRIK_VERTICAL);

    /* predictors count lines of the frame, and a field has half of them */
    if (context->mv_format == FOZDRIK_FIELD_VECTOR) {
        vertical = floored_half(vertical);
    }
    code_component(wanted.horizontal, horizontal, &coded.motion_code_horiz, &coded.motion_residual_horiz_present,
                   &coded.motion_residual_horiz);
    code_component(wanted.vertical, vertical, &coded.motion_code_vert, &coded.motion_residual_vert_present,
                   &coded.motion_residual_vert);
    return coded;
}

/* ---- the receiver's side */

struct run {
    int32_t off_by; /* half samples, added to both components of each vector once it is reconstructed; 0 is right */
    struct fozdrik_pmv pmv;
    struct picture pictures[PICTURES];
    struct fozdrik_frame frames[PICTURES]; /* the same as references */
    unsigned frame_based;
    unsigned field_based;
    unsigned vectors;
};

/* A macroblock of a picture, and the pictures that it is predicted from. */
struct step {
    int number;
    int forward;
    int backward; /* NONE in a P picture */
    int mb_col;
    int mb_row;
};

static uint32_t read_vector(struct run *run, uint32_t r, uint32_t s, uint32_t mv_format, struct fozdrik_vector wanted,
                            struct fozdrik_vector *vector)
{
    struct fozdrik_vector_context context = {0, 0, 0, FOZDRIK_FRAME_PICTURE, F_CODE, F_CODE};
    struct fozdrik_coded_vector coded;
    uint32_t refusal;

    context.r = r;
    context.s = s;
    context.mv_format = mv_format;
    coded = code_vector(&context, &run->pmv, wanted);
    refusal = fozdrik_reconstruct_vector(&context, &coded, &run->pmv, vector);
    if (refusal == FOZDRIK_ACCEPTED) {
        vector->horizontal += run->off_by;
        vector->vertical += run->off_by;
        run->vectors++;
    }
    return refusal;
}

static uint32_t update(struct run *run, uint32_t prediction_type, const struct step *step)
{
    struct fozdrik_update_context context = {
        FOZDRIK_FRAME_PICTURE, FOZDRIK_YES, 0, FOZDRIK_YES, FOZDRIK_NO, FOZDRIK_NO, FOZDRIK_NO};
    uint8_t outcome;

    context.prediction_type = prediction_type;
    context.macroblock_motion_backward = step->backward == NONE ? FOZDRIK_NO : FOZDRIK_YES;
    return fozdrik_update_pmv(&context, &run->pmv, &outcome);
}

static int touches_car(const struct step *step, int number)
{
    int left = car_left(number);
    int top = car_top(number);

    /* one column more, since the car stands between two samples in every second picture */
    return 16 * step->mb_col <= left + CAR_WIDTH && 16 * step->mb_col + 16 > left
        && 16 * step->mb_row < top + CAR_HEIGHT && 16 * step->mb_row + 16 > top;
}

/* The car's vector wherever the car is or was, so that nothing of it stays behind; elsewhere zero. */
static int moves_with_car(const struct step *step)
{
    return touches_car(step, step->number) || touches_car(step, step->forward)
        || (step->backward != NONE && touches_car(step, step->backward));
}

/* The frame vector into a reference: from where the car is now to where it is there. */
static struct fozdrik_vector wanted_vector(const struct step *step, int reference)
{
    struct fozdrik_vector vector = {0, 0};

    if (moves_with_car(step)) {
        vector.horizontal = (reference - step->number) * CAR_HALF_SAMPLES_RIGHT;
        vector.vertical = (step->number - reference) * CAR_HALF_SAMPLES_UP;
    }
    return vector;
}

/* For the rows of one parity: the field, and the vector in it, that read what a frame vector by whole lines reads. */
static struct fozdrik_field_vector in_fields(struct fozdrik_vector frame_vector, int parity)
{
    struct fozdrik_field_vector result;
    int32_t row = parity + frame_vector.vertical / 2; /* of the frame, as read for the parity's first row */
    int32_t line = floored_half(row);

    result.reference_field = row - 2 * line == 0 ? FOZDRIK_TOP : FOZDRIK_BOTTOM;
    result.vector.horizontal = frame_vector.horizontal;
    result.vector.vertical = 2 * line;
    return result;
}

static uint32_t read_field_vectors(struct run *run, uint32_t s, struct fozdrik_vector wanted,
                                   struct fozdrik_field_vector_pair *pair)
{
    uint32_t refusal;

    pair->top = in_fields(wanted, 0);
    pair->bottom = in_fields(wanted, 1);
    refusal = read_vector(run, FOZDRIK_FIRST, s, FOZDRIK_FIELD_VECTOR, pair->top.vector, &pair->top.vector);
    if (refusal == FOZDRIK_ACCEPTED) {
        refusal = read_vector(run, FOZDRIK_SECOND, s, FOZDRIK_FIELD_VECTOR, pair->bottom.vector, &pair->bottom.vector);
    }
    return refusal;
}

static const struct fozdrik_frame *reference(const struct run *run, int number)
{
    return number == NONE ? NULL : &run->frames[number];
}

static uint32_t predict_by_frame(struct run *run, const struct step *step, uint8_t *out, size_t length)
{
    struct fozdrik_frame_motion motion;
    uint32_t refusal;

    memset(&motion, 0, sizeof motion);
    motion.forward_present = FOZDRIK_YES;
    refusal = read_vector(run, FOZDRIK_FIRST, FOZDRIK_FORWARD, FOZDRIK_FRAME_VECTOR, wanted_vector(step, step->forward),
                          &motion.forward);
    if (refusal == FOZDRIK_ACCEPTED && step->backward != NONE) {
        motion.backward_present = FOZDRIK_YES;
        refusal = read_vector(run, FOZDRIK_FIRST, FOZDRIK_BACKWARD, FOZDRIK_FRAME_VECTOR,
                              wanted_vector(step, step->backward), &motion.backward);
    }
    if (refusal == FOZDRIK_ACCEPTED) {
        refusal = update(run, FOZDRIK_FRAME_BASED, step);
    }
    if (refusal == FOZDRIK_ACCEPTED) {
        refusal = fozdrik_predict_frame_based(&run->pictures[step->number].geometry, (size_t)step->mb_col,
                                              (size_t)step->mb_row, reference(run, step->forward),
                                              reference(run, step->backward), &motion, out, length);
        run->frame_based++;
    }
    return refusal;
}

static uint32_t predict_by_fields(struct run *run, const struct step *step, uint8_t *out, size_t length)
{
    struct fozdrik_field_motion motion;
    uint32_t refusal;

    memset(&motion, 0, sizeof motion);
    motion.forward_present = FOZDRIK_YES;
    refusal = read_field_vectors(run, FOZDRIK_FORWARD, wanted_vector(step, step->forward), &motion.forward);
    if (refusal == FOZDRIK_ACCEPTED && step->backward != NONE) {
        motion.backward_present = FOZDRIK_YES;
        refusal = read_field_vectors(run, FOZDRIK_BACKWARD, wanted_vector(step, step->backward), &motion.backward);
    }
    if (refusal == FOZDRIK_ACCEPTED) {
        refusal = update(run, FOZDRIK_FIELD_BASED, step);
    }
    if (refusal == FOZDRIK_ACCEPTED) {
        refusal = fozdrik_predict_field_based(&run->pictures[step->number].geometry, (size_t)step->mb_col,
                                              (size_t)step->mb_row, reference(run, step->forward),
                                              reference(run, step->backward), &motion, out, length);
        run->field_based++;
    }
    return refusal;
}

/* Frame-based and field-based macroblocks take turns as on a chessboard: were either wrong, the squares would show. */
static uint32_t predict_and_place(struct run *run, const struct step *step)
{
    uint8_t macroblock[FOZDRIK_MACROBLOCK_420];
    uint32_t refusal = (step->mb_col + step->mb_row) % 2 == 0
                           ? predict_by_frame(run, step, macroblock, sizeof macroblock)
                           : predict_by_fields(run, step, macroblock, sizeof macroblock);

    if (refusal == FOZDRIK_ACCEPTED) {
        refusal = place_macroblock(&run->pictures[step->number], (size_t)step->mb_col, (size_t)step->mb_row, macroblock,
                                   sizeof macroblock);
    }
    return refusal;
}

static uint32_t predict_picture(struct run *run, int number, int forward, int backward)
{
    struct step step = {0, 0, 0, 0, 0};
    uint32_t refusal;

    step.number = number;
    step.forward = forward;
    step.backward = backward;
    for (step.mb_row = 0; step.mb_row < ROWS; step.mb_row++) {
        fozdrik_pmv_reset(&run->pmv); /* each row is a slice */
        for (step.mb_col = 0; step.mb_col < COLUMNS; step.mb_col++) {
            refusal = predict_and_place(run, &step);
            if (refusal != FOZDRIK_ACCEPTED) {
                printf("picture %d, column %d, row %d: refused, %u\n", number, step.mb_col, step.mb_row,
                       (unsigned)refusal);
                return refusal;
            }
        }
    }
    return FOZDRIK_ACCEPTED;
}

/* In the order of the stream, where a B picture comes after both of its references. */
static uint32_t predict_all(struct run *run)
{
    uint32_t refusal = FOZDRIK_ACCEPTED;
    int number;

    for (number = 2; number < PICTURES && refusal == FOZDRIK_ACCEPTED; number += 2) {
        refusal = predict_picture(run, number, number - 2, NONE);
        if (refusal == FOZDRIK_ACCEPTED) {
            refusal = predict_picture(run, number - 1, number - 2, number);
        }
    }
    return refusal;
}

/* ---- pictures in memory */

static struct plane plane_in(uint8_t *samples, size_t width, size_t height)
{
    struct plane plane;

    plane.samples = samples;
    plane.length = width * height;
    plane.width = width;
    plane.height = height;
    return plane;
}

static struct picture picture_in(uint8_t *bytes)
{
    struct picture picture;

    picture.geometry.width = WIDTH;
    picture.geometry.height = HEIGHT;
    picture.geometry.chroma_format = FOZDRIK_YUV420;
    picture.y = plane_in(bytes, WIDTH, HEIGHT);
    picture.cb = plane_in(bytes + WIDTH * HEIGHT, CHROMA_WIDTH, CHROMA_HEIGHT);
    picture.cr = plane_in(bytes + WIDTH * HEIGHT + CHROMA_WIDTH * CHROMA_HEIGHT, CHROMA_WIDTH, CHROMA_HEIGHT);
    return picture;
}

static struct fozdrik_plane to_read(const struct plane *plane)
{
    struct fozdrik_plane result;

    result.samples = plane->samples;
    result.length = plane->length;
    result.width = plane->width;
    result.height = plane->height;
    return result;
}

static void start(struct run *run, uint8_t (*memory)[PICTURE_BYTES], int32_t off_by)
{
    int number;

    memset(run, 0, sizeof *run);
    run->off_by = off_by;
    for (number = 0; number < PICTURES; number++) {
        struct picture picture = picture_in(memory[number]);

        run->pictures[number] = picture;
        run->frames[number].geometry = picture.geometry;
        run->frames[number].y = to_read(&picture.y);
        run->frames[number].cb = to_read(&picture.cb);
        run->frames[number].cr = to_read(&picture.cr);
    }
    draw(&run->pictures[0], 0);
}

/* ---- what is printed */

/* Adler-32, as zlib has it. */
static unsigned long checksum(const uint8_t *bytes, size_t length)
{
    unsigned long a = 1, b = 0;
    size_t i;

    for (i = 0; i < length; i++) {
        a = (a + bytes[i]) % 65521;
        b = (b + a) % 65521;
    }
    return b << 16 | a;
}

static void print_checksum(const char *title, const struct plane *plane)
{
    printf(" %s %08lx", title, checksum(plane->samples, plane->length));
}

static void print_checksums(const struct run *run, const char *title, int number)
{
    printf("  %-24s", title);
    print_checksum("Y", &run->pictures[number].y);
    print_checksum("Cb", &run->pictures[number].cb);
    print_checksum("Cr", &run->pictures[number].cr);
    printf("\n");
}

static void print_run(const struct run *run)
{
    printf("  %u macroblocks frame-based and %u field-based, by %u vectors; none refused\n", run->frame_based,
           run->field_based, run->vectors);
    print_checksums(run, "picture 0, drawn", 0);
    print_checksums(run, "picture 13, a B picture", 13);
    print_checksums(run, "picture 24, a P picture", 24);
}

/* How far the plate of a picture is from the plate drawn there. In a P picture it stands on whole samples. */
static void print_plate(const struct run *run, int number)
{
    unsigned long sum = 0;
    int x, y, greatest = 0, equal = 0;

    for (y = car_top(number) + PLATE_TOP; y < car_top(number) + PLATE_TOP + PLATE_HEIGHT; y++) {
        for (x = car_left(number) + PLATE_LEFT; x < car_left(number) + PLATE_LEFT + PLATE_WIDTH; x++) {
            int difference = run->pictures[number].y.samples[y * WIDTH + x] - scene_at(number, x, y).y;

            difference = difference < 0 ? -difference : difference;
            sum += (unsigned long)difference;
            equal += difference == 0;
            greatest = difference > greatest ? difference : greatest;
        }
    }
    printf("  plate of picture %2d: %4d of %d samples are right; greatest error %d, mean error %lu\n", number, equal,
           PLATE_WIDTH * PLATE_HEIGHT, greatest, sum / (PLATE_WIDTH * PLATE_HEIGHT));
}

static void print_plates(const struct run *run)
{
    print_plate(run, 2);
    print_plate(run, 4);
    print_plate(run, 8);
    print_plate(run, 24);
}

/* What place_macroblock does not take. The order shows in the last, which has all three faults. */
static void print_refusals_of_placing(const struct run *run)
{
    static const uint8_t bytes[FOZDRIK_MACROBLOCK_420] = {0};
    const struct picture *whole = &run->pictures[0];
    struct picture cut = *whole;

    cut.cr.length--;
    printf("placing refuses\n");
    printf("  a macroblock that lacks a byte: %u\n",
           (unsigned)place_macroblock(whole, 0, 0, bytes, sizeof bytes - 1));
    printf("  column %d of a picture that has %d: %u\n", COLUMNS, COLUMNS,
           (unsigned)place_macroblock(whole, COLUMNS, 0, bytes, sizeof bytes));
    printf("  a picture whose Cr plane lacks a byte: %u\n",
           (unsigned)place_macroblock(&cut, 0, 0, bytes, sizeof bytes));
    printf("  all three at once: %u\n", (unsigned)place_macroblock(&cut, COLUMNS, 0, bytes, sizeof bytes - 1));
}

/* ---- the sheet: three pictures of each run */

enum { GAP = 8, SHEET_WIDTH = 3 * WIDTH + 2 * GAP, SHEET_HEIGHT = 2 * HEIGHT + GAP };

static void copy_to_sheet(uint8_t *sheet, int column, int row, const struct plane *plane)
{
    uint8_t *corner = sheet + row * (HEIGHT + GAP) * SHEET_WIDTH + column * (WIDTH + GAP);
    int y;

    for (y = 0; y < HEIGHT; y++) {
        memcpy(corner + y * SHEET_WIDTH, plane->samples + y * WIDTH, WIDTH);
    }
}

static void fill_sheet(uint8_t *sheet, const struct run *right, const struct run *off)
{
    static const int shown[3] = {0, 13, 24};
    int column;

    memset(sheet, 255, SHEET_WIDTH * SHEET_HEIGHT);
    for (column = 0; column < 3; column++) {
        copy_to_sheet(sheet, column, 0, &right->pictures[shown[column]].y);
        copy_to_sheet(sheet, column, 1, &off->pictures[shown[column]].y);
    }
}

/* 1 where all was written. */
static int write_pgm(const char *path, const uint8_t *samples, int width, int height)
{
    FILE *file = fopen(path, "wb");
    size_t count = (size_t)width * (size_t)height;
    int written;

    if (file == NULL) {
        return 0;
    }
    written = fprintf(file, "P5\n%d %d\n255\n", width, height) > 0 && fwrite(samples, 1, count, file) == count;
    return fclose(file) == 0 && written;
}

int main(int argc, char **argv)
{
    static uint8_t memory[2][PICTURES][PICTURE_BYTES];
    static uint8_t sheet[SHEET_WIDTH * SHEET_HEIGHT];
    static struct run right, off;

    if (argc != 2) {
        fprintf(stderr, "usage: moving_picture FILE.pgm\n");
        return 2;
    }
    start(&right, memory[0], 0);
    start(&off, memory[1], 1);
    if (predict_all(&right) != FOZDRIK_ACCEPTED || predict_all(&off) != FOZDRIK_ACCEPTED) {
        return 1;
    }
    printf("a car in a tunnel: picture 0 of %d x %d, 4:2:0, and %d pictures predicted from it\n", WIDTH, HEIGHT,
           PICTURES - 1);
    print_run(&right);
    print_plates(&right);
    printf("the same with every vector half a sample off\n");
    print_run(&off);
    print_plates(&off);
    print_refusals_of_placing(&right);

    fill_sheet(sheet, &right, &off);
    printf("six of the pictures on a sheet of %d x %d: checksum %08lx\n", SHEET_WIDTH, SHEET_HEIGHT,
           checksum(sheet, sizeof sheet));
    if (!write_pgm(argv[1], sheet, SHEET_WIDTH, SHEET_HEIGHT)) {
        perror(argv[1]);
        return 1;
    }
    return 0;
}
