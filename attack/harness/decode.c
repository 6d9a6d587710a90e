/* Decode: with the file's record and exact room, with a chosen record, rooms and budget, and on a file with the same head whose scan
 * has one bit changed. */
#include "harness.h"

#include <string.h>

static const tillsparrow_decoded no_answer = {UINT64_MAX, 0};

struct drawn {
    struct room output, scratch;
    tillsparrow_decoded answer;
};

static struct drawn draw(const struct room *file, const tillsparrow_record *record, size_t output, size_t scratch, uint64_t budget) {
    struct drawn drawn = {room_take(OUTPUT_ARENA, output, file->placing), room_take(SCRATCH_ARENA, scratch, file->placing), no_answer};
    room_fill(&drawn.output);
    room_fill(&drawn.scratch);
    drawn.answer = tillsparrow_decode(file->at, file->length, *record, drawn.output.at, output, drawn.scratch.at, scratch, budget);
    MUST(drawn.answer.number <= 9 && drawn.answer.left <= budget, "decode answers no number, or leaves more than it was given");
    bool done = drawn.answer.number == 0;
    MUST(!done || (record->output <= output && record->scratch <= scratch), "decode accepts too little room");
    room_untouched(&drawn.output, done ? record->output : 0, "decode's output was written where it must not be");
    room_untouched(&drawn.scratch, done ? record->scratch : 0, "decode's scratch was written where it must not be");
    return drawn;
}

static void leave(struct drawn *drawn) {
    room_give_back(&drawn->output);
    room_give_back(&drawn->scratch);
}

/* The picture and the blocks of the last file that was decoded as it should be. */
static uint8_t picture[ROOM_MOST], blocks[ROOM_MOST];

static bool fits(const tillsparrow_record *record) { return record->output <= ROOM_MOST && record->scratch <= ROOM_MOST; }

static void same_picture(const struct drawn *drawn, const tillsparrow_record *record) {
    MUST(memcmp(drawn->output.at, picture, record->output) == 0, "the same coefficients decode to another picture");
    MUST(memcmp(drawn->scratch.at, blocks, record->scratch) == 0, "the same coefficients decode to other blocks");
}

void check_same_picture(const struct room *file, const struct truth *truth) {
    const tillsparrow_record *own = &truth->found;
    if (!fits(own))
        return;
    struct drawn drawn = draw(file, own, own->output, own->scratch, UINT64_MAX);
    MUST(drawn.answer.number == 0, "a settled file is not decoded with the file's record");
    same_picture(&drawn, own);
    leave(&drawn);
}

static void own_record(const struct room *file, const struct truth *truth) {
    const tillsparrow_record *own = &truth->found;
    uint64_t price = 2 * (uint64_t)file->length + 1 + own->work;
    struct drawn drawn = draw(file, own, own->output, own->scratch, price + 3);
    MUST(drawn.answer.number == 0, "a file that inspect accepts is not decoded with its record and exact room");
    MUST(drawn.answer.left == 3, "decode takes another price");
    memcpy(picture, drawn.output.at, own->output);
    memcpy(blocks, drawn.scratch.at, own->scratch);
    leave(&drawn);
}

static struct answer model(const struct room *file, const struct truth *truth, const tillsparrow_record *record, size_t output,
                           size_t scratch, uint64_t budget) {
    if (output < record->output || scratch < record->scratch)
        return (struct answer){7, budget, 0, 0};
    unsigned __int128 price = 2 * (unsigned __int128)file->length + 1 + record->work;
    if (budget < price)
        return (struct answer){2, budget, 0, 0};
    tillsparrow_record other = *record;
    other.colour = truth->found.colour;
    bool same = truth->accepted && record->colour <= 1 && memcmp(&other, &truth->found, sizeof other) == 0;
    return (struct answer){same ? 0 : 8, budget - (uint64_t)price, 0, 0};
}

static void chosen_record(const struct input *in, const struct room *file, const struct truth *truth) {
    tillsparrow_record record = input_record(in, &truth->found);
    uint64_t price = 2 * (uint64_t)file->length + 1 + record.work;
    size_t output = input_room(in->output_choice, record.output, in->numbers[1]);
    size_t scratch = input_room(in->scratch_choice, record.scratch, in->numbers[0]);
    uint64_t budget = input_near(in->budget_choice, price, in->numbers[1]);
    struct answer want = model(file, truth, &record, output, scratch, budget);
    struct drawn drawn = draw(file, &record, output, scratch, budget);
    MUST(drawn.answer.number == want.number, "decode answers another number than its record, rooms and budget say");
    MUST(drawn.answer.left == want.left, "decode takes another price");
    if (want.number == 0 && record.colour == truth->found.colour)
        same_picture(&drawn, &record);
    feedback(DECODE_NUMBER, 10 * (in->record_choice % RECORD_CHOICES) + want.number);
    leave(&drawn);
}

/* The blocks that were read before the changed byte are read as before: the scan breaks in the block that first looks at it, which is
 * the one in which the file breaks that ends there, or in a later one. */
static void broke_behind(const struct answer *scan, const struct answer *cut) {
    if (scan->number == 0)
        return;
    MUST(scan->block >= cut->block && scan->place >= cut->place, "a scan breaks before the byte that was changed");
    MUST(scan->block > cut->block || scan->place == cut->place, "one block, and two places where its reading began");
}

static void flipped_bit(const struct input *in, const struct room *file, const struct truth *truth) {
    const tillsparrow_record *own = &truth->found;
    struct room other = room_take(FLIPPED_ARENA, file->length, in->placing);
    room_copy(&other, file->at);
    size_t bit = in->flip % (8 * (file->length - own->start)), at = own->start + bit / 8;
    other.at[at] ^= (uint8_t)(128 >> bit % 8);
    tillsparrow_inspected seen = tillsparrow_inspect(other.at, other.length, in->colour, UINT64_MAX, UINT64_MAX, UINT64_MAX, UINT64_MAX);
    struct answer scan = {seen.number, seen.left, seen.block, seen.place}, cut = cut_scan(file, &truth->head, at);
    check_scan(&other, &truth->head, &scan);
    broke_behind(&scan, &cut);
    struct drawn drawn = draw(&other, own, own->output + 1, own->scratch + 1, UINT64_MAX);
    MUST(drawn.answer.number == (seen.number == 0 ? 0 : 8), "decode and inspect disagree on a changed scan");
    MUST(drawn.answer.left == seen.left, "decode and inspect take different prices");
    feedback(FLIPPED_NUMBER, seen.number);
    leave(&drawn);
    room_give_back(&other);
}

void check_decode(const struct input *in, const struct room *file, const struct truth *truth) {
    if (truth->accepted && fits(&truth->found))
        own_record(file, truth);
    if (truth->accepted && !fits(&truth->found))
        return;
    chosen_record(in, file, truth);
    if (truth->accepted)
        flipped_bit(in, file, truth);
}
