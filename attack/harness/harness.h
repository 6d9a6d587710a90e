/* What the parts of the harness share: the input and its choices, the guarded rooms, the harness's own walk over a head, the
 * feedback, and the one way to report a violation. */
#ifndef HARNESS_H
#define HARNESS_H

#include "tillsparrow.h"

/* The first bytes of an input choose colour, limits, budget, rooms and record; the rest is the file. */
enum { CONTROL = 32, ROOM_MOST = 1 << 20, FILE_MOST = 1 << 16, COMMENTS_KEPT = 64, NUMBERS = 46, CHANNELS = 4 };

/* Where a lent buffer lies: against a page that faults, behind it or before it, or in a block of the allocator of its own size. */
enum placing { GUARD_BEHIND, GUARD_BEFORE, ALLOCATED, PLACINGS };

struct input {
    bool colour;
    enum placing placing;
    uint8_t limit_choice[3], budget_choice, output_choice, scratch_choice, settle_choice, record_choice;
    uint8_t index;       /* of the comment asked for */
    uint8_t fields[2];   /* of the record, to be changed */
    uint32_t flip;       /* a bit of the scan */
    uint64_t numbers[2]; /* any numbers */
    const uint8_t *file;
    size_t length;
};

struct input input_read(const uint8_t *data, size_t size);
/* A number at, below, above or far from the exact one, as chosen. */
uint64_t input_near(uint8_t choice, uint64_t exact, uint64_t any);
/* The same for a buffer, which cannot be longer than there is memory for. */
size_t input_room(uint8_t choice, uint64_t exact, uint64_t any);
/* The right record, or one that is changed, as chosen. */
enum { RECORD_CHOICES = 6 };
tillsparrow_record input_record(const struct input *in, const tillsparrow_record *right);

enum arena { FILE_ARENA, OUTPUT_ARENA, SCRATCH_ARENA, SETTLED_ARENA, AGAIN_ARENA, FLIPPED_ARENA, CUT_ARENA, ARENAS };

struct room {
    uint8_t *at;
    size_t length;
    enum placing placing;
    enum arena arena;
};

struct room room_take(enum arena arena, size_t length, enum placing placing);
void room_give_back(struct room *room);
/* The pattern that lies in a room before a call. */
void room_fill(struct room *room);
/* From place `from` on the room holds the pattern still, and so does what lies beside it. */
void room_untouched(const struct room *room, size_t from, const char *what);
void room_copy(struct room *room, const uint8_t *bytes);

struct part {
    size_t at, length;
};

/* A head that was accepted, read by the harness itself; what is by channel is 0 behind the last; `per` is the blocks of an MCU. */
struct head {
    uint64_t width, height, channels;
    uint64_t across[CHANNELS], down[CHANNELS], ids[CHANNELS], qids[CHANNELS], dcids[CHANNELS], acids[CHANNELS];
    uint64_t interval, start, per, blocks, output, work;
    size_t comments;
    struct part comment[COMMENTS_KEPT];
};

struct head head_walk(const uint8_t *file, size_t length);

enum kind {
    INSPECT_NUMBER,
    DECODE_NUMBER,
    SETTLE_NUMBER,
    PRESENCE_NUMBER,
    FLIPPED_NUMBER,
    BLOCKS,
    SHAPE,
    FACTORS,
    COMMENT_COUNT,
    INTERVAL,
    SETTLED_LENGTH,
    BROKEN,
    KINDS
};

/* A counter that libFuzzer takes as coverage. */
void feedback(enum kind kind, uint64_t value);
uint64_t size_class(uint64_t value);

/* Files that were accepted in this run. pool_take answers the length, or 0 where none fits. */
void pool_add(const uint8_t *file, size_t length);
size_t pool_take(uint64_t any, uint8_t *file, size_t most);

_Noreturn void violated(const char *what, const char *file, int line);
#define MUST(holds, what)                                                                                                                  \
    do {                                                                                                                                   \
        if (!(holds))                                                                                                                      \
            violated(what, __FILE__, __LINE__);                                                                                            \
    } while (0)

struct limits {
    uint64_t input, side, output, budget;
};

/* Block and place are where the scan broke, and 0 for every answer but that. */
struct answer {
    uint64_t number, left, block, place;
};

/* What is known of the file of an input: the model of every answer is made of it. */
struct truth {
    uint64_t header;    /* 3, 4 or 5, or 0 where the head is read */
    struct answer scan; /* where the head is read: 0, or 3, 4, 10 or 11 and where; what is left is of 2^64 - 1 */
    bool accepted;
    struct head head;
    tillsparrow_record found; /* where accepted */
};

struct truth learn(const struct input *in, const struct room *file);
struct limits chosen_limits(const struct input *in, const struct truth *truth);
/* What inspect must answer. */
struct answer expected(const struct truth *truth, size_t length, const struct limits *limits);
bool zero(const void *bytes, size_t length);
uint64_t upwards(uint64_t number, uint64_t by);

/* What inspect says of a scan, that it is whole or where it broke, is held against the head and the bytes. */
void check_scan(const struct room *file, const struct head *head, const struct answer *scan);
/* What inspect says of the first bytes of the file, which end somewhere in the part of its scan that is read well. */
struct answer cut_scan(const struct room *file, const struct head *head, size_t length);

void check_inspect(const struct input *in, const struct room *file, const struct truth *truth);
void check_comments(const struct input *in, const struct room *file, const struct truth *truth);
void check_decode(const struct input *in, const struct room *file, const struct truth *truth);
/* Another file with the same record, settled, shows what the last file of check_decode showed. */
void check_same_picture(const struct room *file, const struct truth *truth);
void check_settle(const struct input *in, const struct room *file, const struct truth *truth);
/* Inspect without limits against the reference reader, whose coverage also guides the run; and all calls, chosen in the same way. */
void compare_inspect(const struct input *in, const struct room *file, const struct truth *truth);
void compare_calls(const struct input *in, const struct room *file, const struct truth *truth);

#endif
