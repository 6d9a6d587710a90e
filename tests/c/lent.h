/* What the test programs for C share: a count of the facts that held, files, and buffers to lend.
 *
 * With GUARDED a lent buffer ends where a page begins that nobody may touch, and the bytes of a file may only be read, so that a call
 * which reaches behind an end or writes into the file stops the program there. Without it, buffers come from malloc, for the
 * sanitizers to watch.
 */
#ifndef LENT_H
#define LENT_H

#include <stdarg.h>
#include <stdbool.h>
#include <stdint.h>
#include <stdio.h>
#include <stdlib.h>
#include <string.h>
#ifdef GUARDED
#include <sys/mman.h>
#include <unistd.h>
#endif

static const char *in_hand = "calls";
static unsigned long facts;

static void hold(bool fact, const char *what, ...) {
    va_list values;
    if (fact) {
        facts++;
        return;
    }
    fprintf(stderr, "calls: %s: ", in_hand);
    va_start(values, what);
    vfprintf(stderr, what, values);
    va_end(values);
    fputc('\n', stderr);
    exit(1);
}

struct lent {
    uint8_t *bytes;
    size_t length;
    void *room;
    size_t whole;
};

/* The protected page makes the room a whole number of pages; the buffer is put at the end of it. */
static struct lent lend(size_t length) {
    struct lent made = {NULL, length, NULL, 0};
#ifdef GUARDED
    size_t page = (size_t)sysconf(_SC_PAGESIZE);
    size_t before = (length + page - 1) / page * page;
    made.whole = before + page;
    made.room = mmap(NULL, made.whole, PROT_READ | PROT_WRITE, MAP_PRIVATE | MAP_ANONYMOUS, -1, 0);
    hold(made.room != MAP_FAILED, "no room for %zu bytes", length);
    made.bytes = (uint8_t *)made.room + (before - length);
    hold(mprotect((uint8_t *)made.room + before, page, PROT_NONE) == 0, "no page can be protected");
#else
    /* malloc may answer null for 0 bytes, and a lent pointer is never null */
    made.room = malloc(length == 0 ? 1 : length);
    hold(made.room != NULL, "no room for %zu bytes", length);
    made.bytes = made.room;
#endif
    return made;
}

static struct lent lend_filled(size_t length, int value) {
    struct lent made = lend(length);
    memset(made.bytes, value, length);
    return made;
}

static void give_back(struct lent gone) {
#ifdef GUARDED
    munmap(gone.room, gone.whole);
#else
    free(gone.room);
#endif
}

static bool is_filled(const uint8_t *bytes, size_t length, int value) {
    for (size_t i = 0; i < length; i++)
        if (bytes[i] != value)
            return false;
    return true;
}

static bool same_bytes(struct lent one, struct lent other, size_t length) {
    return memcmp(one.bytes, other.bytes, length) == 0;
}

/* From here on the bytes are only read. */
static struct lent lend_for_reading(const uint8_t *bytes, size_t length) {
    struct lent made = lend(length);
    memcpy(made.bytes, bytes, length);
#ifdef GUARDED
    hold(mprotect(made.room, made.whole - (size_t)sysconf(_SC_PAGESIZE), PROT_READ) == 0 || length == 0, "no page can be protected");
#endif
    return made;
}

static struct lent read_file(const char *name) {
    FILE *file = fopen(name, "rb");
    hold(file != NULL && fseek(file, 0, SEEK_END) == 0, "%s cannot be read", name);
    long end = ftell(file);
    hold(end >= 0, "%s cannot be read", name);
    size_t length = (size_t)end;
    uint8_t *bytes = malloc(length == 0 ? 1 : length);
    rewind(file);
    hold(bytes != NULL && fread(bytes, 1, length, file) == length, "%s cannot be read", name);
    fclose(file);
    struct lent made = lend_for_reading(bytes, length);
    free(bytes);
    return made;
}

#endif
