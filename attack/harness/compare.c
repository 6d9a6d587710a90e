/* The chosen calls against the reference reader: number, budget left, where the scan broke, record, every byte of the lent buffers. */
#include "harness.h"

#include <string.h>

struct asked {
    const uint8_t *bytes;
    size_t length;
    uint64_t limits[3];
    uint64_t budget;
};

struct told {
    uint64_t number, left, block, place, length;
};

struct told reference_inspect(const struct asked *asked, uint64_t colour, uint64_t *found);
struct told reference_decode(const struct asked *asked, const uint64_t *found, uint8_t *output, size_t output_length, uint8_t *scratch,
                             size_t scratch_length);
struct told reference_settle(const struct asked *asked, uint8_t *output, size_t output_length);

static struct asked ask(const struct room *file, const struct limits *l) {
    return (struct asked){file->at, file->length, {l->input, l->side, l->output}, l->budget};
}

static void inspects(const struct input *in, const struct room *file, const struct limits *l) {
    struct asked asked = ask(file, l);
    uint64_t found[NUMBERS];
    struct told told = reference_inspect(&asked, in->colour, found);
    tillsparrow_inspected seen = tillsparrow_inspect(file->at, file->length, in->colour, l->input, l->side, l->output, l->budget);
    MUST(seen.number == told.number && seen.left == told.left, "inspect and the reference differ in number or price");
    MUST(seen.block == told.block && seen.place == told.place, "inspect and the reference differ in where the scan broke");
    MUST(memcmp(&seen.found, found, sizeof found) == 0, "inspect and the reference differ in the record");
}

/* Two pairs of buffers: the archive's and the reference's. */
static void decodes(const struct room *file, const tillsparrow_record *record, size_t output, size_t scratch, uint64_t budget) {
    struct room rooms[4] = {room_take(OUTPUT_ARENA, output, file->placing), room_take(SCRATCH_ARENA, scratch, file->placing),
                            room_take(SETTLED_ARENA, output, file->placing), room_take(AGAIN_ARENA, scratch, file->placing)};
    for (int i = 0; i < 4; i++)
        room_fill(&rooms[i]);
    tillsparrow_decoded drawn = tillsparrow_decode(file->at, file->length, *record, rooms[0].at, output, rooms[1].at, scratch, budget);
    struct asked asked = {file->at, file->length, {0, 0, 0}, budget};
    uint64_t numbers[NUMBERS];
    memcpy(numbers, record, sizeof numbers);
    struct told told = reference_decode(&asked, numbers, rooms[2].at, output, rooms[3].at, scratch);
    MUST(drawn.number == told.number && drawn.left == told.left, "decode and the reference differ in number or price");
    MUST(memcmp(rooms[0].at, rooms[2].at, output) == 0, "decode and the reference differ in the picture");
    MUST(memcmp(rooms[1].at, rooms[3].at, scratch) == 0, "decode and the reference differ in the blocks");
    for (int i = 0; i < 4; i++)
        room_give_back(&rooms[i]);
}

static void settles(const struct room *file, const struct limits *l, size_t length) {
    struct room mine = room_take(SETTLED_ARENA, length, file->placing), other = room_take(AGAIN_ARENA, length, file->placing);
    room_fill(&mine);
    room_fill(&other);
    tillsparrow_settled seen = tillsparrow_settle(file->at, file->length, l->input, l->side, l->output, l->budget, mine.at, length);
    struct asked asked = ask(file, l);
    struct told told = reference_settle(&asked, other.at, length);
    MUST(seen.number == told.number && seen.left == told.left, "settle and the reference differ in number or price");
    MUST(seen.block == told.block && seen.place == told.place, "settle and the reference differ in where the scan broke");
    MUST(seen.length == told.length, "settle and the reference differ in the length");
    MUST(memcmp(mine.at, other.at, length) == 0, "settle and the reference differ in the settled file");
    room_give_back(&mine);
    room_give_back(&other);
}

static void chosen(const struct input *in, const struct room *file, const struct truth *truth) {
    struct limits limits = chosen_limits(in, truth);
    tillsparrow_record record = input_record(in, &truth->found);
    uint64_t price = 2 * (uint64_t)file->length + 1 + record.work;
    inspects(in, file, &limits);
    if (record.colour <= 1) /* the reference knows no other choice */
        decodes(file, &record, input_room(in->output_choice, record.output, in->numbers[1]),
                input_room(in->scratch_choice, record.scratch, in->numbers[0]), input_near(in->budget_choice, price, in->numbers[1]));
    settles(file, &limits, input_room(in->settle_choice, 2 * file->length, in->numbers[1]));
}

static const struct limits none = {UINT64_MAX, UINT64_MAX, UINT64_MAX, UINT64_MAX};

/* The reference takes its time, so pictures of many blocks are left out. */
static bool small(const struct truth *truth) { return truth->head.blocks <= 4096; }

void compare_inspect(const struct input *in, const struct room *file, const struct truth *truth) {
    if (small(truth))
        inspects(in, file, &none);
}

void compare_calls(const struct input *in, const struct room *file, const struct truth *truth) {
    if (!small(truth))
        return;
    chosen(in, file, truth);
    if (!truth->accepted)
        return;
    decodes(file, &truth->found, truth->found.output, truth->found.scratch, UINT64_MAX);
    settles(file, &none, 2 * file->length + 4 * truth->found.blocks);
}
