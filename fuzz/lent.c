#define _GNU_SOURCE
#include <stdio.h>
#include <stdlib.h>
#include <string.h>
#include <sys/mman.h>
#include <unistd.h>

#include "lent.h"

enum { BEFORE_ALLOCATED = 0x5a, LOOKED_AT = 4096 };

/* Memory between two guards. */
struct room {
    uint8_t *lent;
    uint8_t *written; /* the same memory, where we write to it */
    size_t size;
};

static struct room rooms[SLOTS];
static struct room vast_rooms[PLANES + 1]; /* all planes share one, since inputs may overlap */

static void *mapped(void *memory)
{
    if (memory == MAP_FAILED) {
        perror("no memory between guards");
        exit(2);
    }
    return memory;
}

static struct room make_room(size_t size, int only_read)
{
    size_t page = (size_t)sysconf(_SC_PAGESIZE);
    int nowhere = MAP_PRIVATE | MAP_ANONYMOUS | MAP_NORESERVE;
    uint8_t *all = (uint8_t *)mapped(mmap(NULL, size + 2 * page, PROT_NONE, nowhere, -1, 0));
    struct room room = {all + page, all + page, size};
    int file;

    if (!only_read || size > LARGEST) {
        mapped(mmap(
            room.lent, size, only_read ? PROT_READ : PROT_READ | PROT_WRITE, nowhere | MAP_FIXED, -1, 0));
        return room;
    }
    /* there twice: where it is lent it can only be read */
    file = memfd_create("plane", 0);
    if (file < 0 || ftruncate(file, (off_t)size) != 0) {
        mapped(MAP_FAILED);
    }
    mapped(mmap(room.lent, size, PROT_READ, MAP_SHARED | MAP_FIXED, file, 0));
    room.written = (uint8_t *)mapped(mmap(NULL, size, PROT_READ | PROT_WRITE, MAP_SHARED, file, 0));
    close(file);
    return room;
}

static void make_rooms(void)
{
    size_t slot;

    for (slot = 0; slot < SLOTS; slot++) {
        rooms[slot] = make_room(LARGEST, slot >= PLANES);
    }
    for (slot = 0; slot <= PLANES; slot++) {
        vast_rooms[slot] = make_room(VAST + LARGEST, slot == PLANES);
    }
}

/* An allocated buffer lies c->odd bytes into its allocation. */
static int is_allocated(const struct buffer *buffer, enum placement placement)
{
    return placement == ALLOCATED && buffer->length <= LARGEST;
}

static uint8_t *lend_one(const struct a_case *c, size_t slot, enum placement placement)
{
    const struct buffer *buffer = &c->buffers[slot];
    const struct room *room =
        buffer->length > LARGEST ? &vast_rooms[slot < PLANES ? slot : PLANES] : &rooms[slot];
    size_t start = placement == BEHIND_A_GUARD && buffer->length > 0 ? 0 : room->size - buffer->length;
    uint8_t *memory;

    if (is_allocated(buffer, placement)) {
        memory = (uint8_t *)malloc(c->odd + buffer->length);
        if (memory == NULL) {
            exit(2);
        }
        memset(memory, BEFORE_ALLOCATED, c->odd);
        memcpy(memory + c->odd, buffer->bytes, buffer->length);
        return memory + c->odd;
    }
    if (buffer->length == 0 && placement == BEFORE_A_GUARD) {
        return NULL;
    }
    if (buffer->length <= LARGEST) {
        memcpy(room->written + start, buffer->bytes, buffer->length);
    }
    return room->lent + start;
}

void lend(const struct a_case *c, enum placement placement, uint8_t *lent[SLOTS])
{
    size_t slot;

    if (rooms[0].size == 0) {
        make_rooms();
    }
    for (slot = first_slot(c); slot < end_slot(c); slot++) {
        const struct buffer *buffer = &c->buffers[slot];

        if (buffer->whole == slot) {
            lent[slot] = lend_one(c, slot, placement);
        } else {
            lent[slot] = lent[buffer->whole] == NULL ? NULL : lent[buffer->whole] + buffer->start;
        }
    }
}

int holds(const struct a_case *c, uint8_t *const lent[SLOTS], size_t slot, const uint8_t *bytes)
{
    static const uint8_t zeros[LOOKED_AT];
    size_t length = c->buffers[slot].length;

    if (length > LARGEST) {
        return memcmp(lent[slot], zeros, LOOKED_AT) == 0 &&
               memcmp(lent[slot] + length - LOOKED_AT, zeros, LOOKED_AT) == 0;
    }
    return length == 0 || memcmp(lent[slot], bytes, length) == 0;
}

int take_back(const struct a_case *c, enum placement placement, uint8_t *const lent[SLOTS])
{
    int same = 1;
    size_t slot;
    size_t i;

    for (slot = first_slot(c); slot < end_slot(c); slot++) {
        if (c->buffers[slot].whole == slot && is_allocated(&c->buffers[slot], placement)) {
            for (i = 1; i <= c->odd; i++) {
                same &= *(lent[slot] - i) == BEFORE_ALLOCATED;
            }
            free(lent[slot] - c->odd);
        }
    }
    return same;
}
