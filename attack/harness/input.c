/* An input taken apart: 32 bytes of choices, then the file. */
#include "harness.h"

#include <string.h>

static uint64_t little(const uint8_t *bytes, int count) {
    uint64_t number = 0;
    for (int i = count - 1; i >= 0; i--)
        number = 256 * number + bytes[i];
    return number;
}

struct input input_read(const uint8_t *data, size_t size) {
    uint8_t control[CONTROL] = {0};
    size_t head = size < CONTROL ? size : CONTROL;
    memcpy(control, data, head);
    struct input in = {.colour = control[0] & 1, .placing = (enum placing)(control[0] / 2 % PLACINGS)};
    memcpy(in.limit_choice, control + 1, 3);
    in.budget_choice = control[4];
    in.output_choice = control[5];
    in.scratch_choice = control[6];
    in.settle_choice = control[7];
    in.record_choice = control[8];
    in.index = control[9];
    memcpy(in.fields, control + 10, 2);
    in.flip = (uint32_t)little(control + 12, 4);
    in.numbers[0] = little(control + 16, 8);
    in.numbers[1] = little(control + 24, 8);
    in.file = data + head;
    in.length = size - head;
    return in;
}

uint64_t input_near(uint8_t choice, uint64_t exact, uint64_t any) {
    switch (choice % 8) {
    case 1: return exact > 0 ? exact - 1 : 0;
    case 2: return exact < UINT64_MAX ? exact + 1 : exact;
    case 3: return 0;
    case 4: return any;
    case 5: return UINT64_MAX;
    case 6: return any % 65536;
    default: return exact;
    }
}

size_t input_room(uint8_t choice, uint64_t exact, uint64_t any) {
    uint64_t length = choice % 8 == 6 ? any % 2048 : input_near(choice, exact, any);
    if (length <= ROOM_MOST)
        return (size_t)length;
    /* there is no such buffer: a little more than the exact one, or what there is */
    return exact + any % 256 <= ROOM_MOST ? (size_t)(exact + any % 256) : (size_t)(any % 256);
}

static uint64_t step(uint64_t *state) {
    *state += 0x9e3779b97f4a7c15;
    uint64_t mixed = (*state ^ (*state >> 30)) * 0xbf58476d1ce4e5b9;
    mixed = (mixed ^ (mixed >> 27)) * 0x94d049bb133111eb;
    return mixed ^ (mixed >> 31);
}

/* Numbers of every size: small ones, places in a file, and any. */
static tillsparrow_record any_record(uint64_t seed) {
    uint64_t numbers[NUMBERS];
    for (int i = 0; i < NUMBERS; i++) {
        uint64_t number = step(&seed);
        numbers[i] = number >> (step(&seed) % 65 == 64 ? 63 : step(&seed) % 64);
    }
    tillsparrow_record record;
    memcpy(&record, numbers, sizeof record);
    return record;
}

/* One factor, where the right one stands: that, another that a channel may have or nearly, or any number. */
static uint64_t any_factor(uint64_t right, uint64_t most, uint64_t *seed) {
    uint64_t number = step(seed);
    switch (step(seed) % 4) {
    case 0: return right;
    case 1: return number >> step(seed) % 64 & most;
    default: return number % 6;
    }
}

/* Other factors in any of the four channels, behind the last one too. */
static void other_factors(tillsparrow_record *record, uint64_t most, uint64_t seed) {
    for (size_t i = 0; i < CHANNELS; i++) {
        record->across[i] = any_factor(record->across[i], most, &seed);
        record->down[i] = any_factor(record->down[i], most, &seed);
    }
}

/* Blocks, both lengths and the work as the rules have them for the factors of the first channels, which are small numbers. */
static void measure_again(tillsparrow_record *record) {
    uint64_t wide = 0, high = 0, per = 0;
    for (size_t i = 0; i < CHANNELS && i < record->channels; i++) {
        wide = record->across[i] > wide ? record->across[i] : wide;
        high = record->down[i] > high ? record->down[i] : high;
        per += record->across[i] * record->down[i];
    }
    if (wide == 0 || high == 0)
        return;
    record->blocks = upwards(record->width, 8 * wide) * upwards(record->height, 8 * high) * per;
    record->scratch = 64 * record->blocks;
    record->output = record->width * record->height * record->channels;
    record->work = 3136 * record->blocks + record->output;
}

tillsparrow_record input_record(const struct input *in, const tillsparrow_record *right) {
    tillsparrow_record record = *right;
    uint64_t numbers[NUMBERS], seed = in->numbers[0] ^ in->numbers[1];
    memcpy(numbers, right, sizeof numbers);
    switch (in->record_choice % RECORD_CHOICES) {
    case 1:
        numbers[in->fields[0] % NUMBERS] =
            input_near(in->record_choice / RECORD_CHOICES, numbers[in->fields[0] % NUMBERS], in->numbers[0]);
        break;
    case 2:
        numbers[in->fields[0] % NUMBERS] = in->numbers[0] % 70000;
        numbers[in->fields[1] % NUMBERS] = in->numbers[1];
        break;
    case 3: return any_record(seed);
    case 4: other_factors(&record, UINT64_MAX, seed); return record;
    case 5:
        other_factors(&record, 7, seed);
        record.channels = in->fields[0] % 4 == 0 ? in->fields[1] % 6 : record.channels;
        measure_again(&record);
        return record;
    default: break;
    }
    memcpy(&record, numbers, sizeof record);
    return record;
}
