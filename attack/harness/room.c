/* Buffers for one call. The archive carries no instrumentation, so a buffer lies against a page that faults: a read or a write one
 * past its end, or one before its start, stops the run. What lies on its other side holds the pattern and is looked at afterwards. */
#define _GNU_SOURCE
#include "harness.h"

#include <stdlib.h>
#include <string.h>
#include <sys/mman.h>

enum { PAGE = 4096, BESIDE = 64, SPAN = ROOM_MOST + 2 * PAGE };

static uint8_t *arenas[ARENAS];
static uint8_t pattern[SPAN];

static void prepare(void) {
    for (size_t i = 0; i < SPAN; i++)
        pattern[i] = (uint8_t)(11 * i % 253);
    for (int i = 0; i < ARENAS; i++) {
        uint8_t *all = mmap(NULL, SPAN + 2 * PAGE, PROT_NONE, MAP_PRIVATE | MAP_ANONYMOUS, -1, 0);
        MUST(all != MAP_FAILED && mprotect(all + PAGE, SPAN, PROT_READ | PROT_WRITE) == 0, "no memory for the rooms");
        arenas[i] = all + PAGE;
    }
}

struct room room_take(enum arena arena, size_t length, enum placing placing) {
    if (arenas[0] == NULL)
        prepare();
    MUST(length <= ROOM_MOST + PAGE, "a room that the harness does not have");
    struct room room = {NULL, length, placing, arena};
    if (placing == ALLOCATED)
        room.at = malloc(length > 0 ? length : 1);
    else
        room.at = placing == GUARD_BEHIND ? arenas[arena] + SPAN - length : arenas[arena];
    MUST(room.at != NULL, "no memory for a room");
    return room;
}

void room_give_back(struct room *room) {
    if (room->placing == ALLOCATED)
        free(room->at);
    room->at = NULL;
}

/* The 64 bytes on the side that has no guard, or nothing. */
static uint8_t *beside(const struct room *room) {
    if (room->placing == ALLOCATED)
        return NULL;
    return room->placing == GUARD_BEHIND ? room->at - BESIDE : room->at + room->length;
}

void room_fill(struct room *room) {
    memcpy(room->at, pattern, room->length);
    uint8_t *side = beside(room);
    if (side != NULL)
        memcpy(side, pattern, BESIDE);
}

void room_untouched(const struct room *room, size_t from, const char *what) {
    MUST(from <= room->length, "a place outside the room");
    MUST(memcmp(room->at + from, pattern + from, room->length - from) == 0, what);
    const uint8_t *side = beside(room);
    MUST(side == NULL || memcmp(side, pattern, BESIDE) == 0, "bytes beside a buffer were written");
}

void room_copy(struct room *room, const uint8_t *bytes) {
    memcpy(room->at, bytes, room->length);
    uint8_t *side = beside(room);
    if (side != NULL)
        memcpy(side, pattern, BESIDE);
}
