/* Settle: its numbers and price, the length it names, and what the theorems say of the settled file. */
#include "harness.h"

#include <string.h>

struct written {
    struct room room;
    tillsparrow_settled answer;
};

static struct written settle(const struct room *file, const struct limits *l, size_t length, enum arena arena) {
    struct written written = {room_take(arena, length, file->placing), {0}};
    room_fill(&written.room);
    written.answer = tillsparrow_settle(file->at, file->length, l->input, l->side, l->output, l->budget, written.room.at, length);
    MUST(written.answer.number <= 11 && written.answer.left <= l->budget, "settle answers no number, or leaves more than it was given");
    bool done = written.answer.number == 0;
    MUST(!done || written.answer.length <= length, "settle accepts too little room");
    room_untouched(&written.room, done ? written.answer.length : 0, "settle's output was written where it must not be");
    return written;
}

static const struct limits none = {UINT64_MAX, UINT64_MAX, UINT64_MAX, UINT64_MAX};

/* The number and the length that settle gives where nothing limits it: 9, or 7 with the length. */
static tillsparrow_settled without_room(const struct room *file, const struct truth *truth) {
    struct written written = settle(file, &none, 0, SETTLED_ARENA);
    struct answer want = expected(truth, file->length, &none);
    if (want.number == 0)
        want.number = written.answer.number == 9 ? 9 : 7;
    MUST(written.answer.number == want.number && written.answer.left == want.left, "settle with no room");
    MUST(written.answer.block == want.block && written.answer.place == want.place, "settle says otherwise where the scan broke");
    MUST((written.answer.length > 0) == (want.number == 7), "the length of a refusal");
    room_give_back(&written.room);
    return written.answer;
}

/* What the chosen call wrote, to be written again by the next. */
static uint8_t first_written[ROOM_MOST];
static size_t first_length;

static void chosen_room(const struct input *in, const struct room *file, const struct truth *truth, const tillsparrow_settled *need) {
    struct limits limits = chosen_limits(in, truth);
    size_t length = input_room(in->settle_choice, need->length, in->numbers[1]);
    struct answer want = expected(truth, file->length, &limits);
    if (want.number == 0)
        want.number = need->number == 9 ? 9 : length < need->length ? 7 : 0;
    struct written written = settle(file, &limits, length, SETTLED_ARENA);
    MUST(written.answer.number == want.number, "settle answers another number than its limits, budget and room say");
    MUST(written.answer.left == want.left, "settle takes another price");
    MUST(written.answer.block == want.block && written.answer.place == want.place, "settle's limits and room change where it broke");
    bool named = want.number == 0 || want.number == 7;
    MUST(written.answer.length == (named ? need->length : 0), "settle names another length");
    feedback(SETTLE_NUMBER, want.number);
    first_length = want.number == 0 ? (size_t)need->length : 0;
    memcpy(first_written, written.room.at, first_length);
    room_give_back(&written.room);
}

/* The settled file is accepted with the same record, shows the same picture and settles to itself. */
static void settled_file(const struct room *file, const struct truth *truth, size_t length) {
    struct written written = settle(file, &none, length, SETTLED_ARENA);
    MUST(written.answer.number == 0 && written.answer.length == length, "settle with the room that it named");
    MUST(written.answer.block == 0 && written.answer.place == 0, "a settled file with a place where its scan broke");
    MUST(memcmp(written.room.at, first_written, first_length) == 0, "settle writes twice differently");
    MUST(length - truth->head.start <= 2 * (file->length - truth->head.start) + 4 * truth->head.blocks,
         "a settled file longer than the bound");
    MUST(memcmp(written.room.at, file->at, truth->head.start) == 0, "the settled file has another head");
    tillsparrow_inspected seen =
        tillsparrow_inspect(written.room.at, length, truth->found.colour != 0, UINT64_MAX, UINT64_MAX, UINT64_MAX, UINT64_MAX);
    MUST(seen.number == 0, "inspect refuses the settled file");
    MUST(memcmp(&seen.found, &truth->found, sizeof seen.found) == 0, "the settled file has another record");
    check_same_picture(&written.room, truth);
    struct written again = settle(&written.room, &none, length, AGAIN_ARENA);
    MUST(again.answer.number == 0 && again.answer.length == length, "settling again gives another length");
    MUST(memcmp(again.room.at, written.room.at, length) == 0, "settling again gives other bytes");
    room_give_back(&again.room);
    room_give_back(&written.room);
}

void check_settle(const struct input *in, const struct room *file, const struct truth *truth) {
    tillsparrow_settled need = without_room(file, truth);
    chosen_room(in, file, truth, &need);
    if (need.number != 7 || need.length > ROOM_MOST)
        return;
    settled_file(file, truth, (size_t)need.length);
    feedback(SETTLED_LENGTH,
             need.length < file->length ? 1 + size_class(file->length - need.length) : 30 + size_class(need.length - file->length));
}
