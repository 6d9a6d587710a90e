/* What is true of a file, found by calls without limits, and the model that says what every other call on it must answer; inspect
 * and the two calls on comments are held against it. */
#include "harness.h"

#include <string.h>

bool zero(const void *bytes, size_t length) {
    const uint8_t *all = bytes;
    for (size_t i = 0; i < length; i++)
        if (all[i] != 0)
            return false;
    return true;
}

static tillsparrow_inspected look(const struct room *file, bool colour, const struct limits *l) {
    tillsparrow_inspected seen = tillsparrow_inspect(file->at, file->length, colour, l->input, l->side, l->output, l->budget);
    MUST(seen.number <= 11 && seen.left <= l->budget, "inspect answers no number, or leaves more than it was given");
    MUST(seen.number == 0 || zero(&seen.found, sizeof seen.found), "the record of a refusal is not zero");
    return seen;
}

static void record_fits(const tillsparrow_record *found, const struct head *head, bool colour) {
    MUST(found->width == head->width && found->height == head->height && found->channels == head->channels, "the record's picture");
    for (size_t i = 0; i < CHANNELS; i++) {
        MUST(found->across[i] == head->across[i] && found->down[i] == head->down[i], "the record's factors");
        MUST(found->ids[i] == head->ids[i] && found->qids[i] == head->qids[i], "the record's component or quantizer ids");
        MUST(found->dcids[i] == head->dcids[i] && found->acids[i] == head->acids[i], "the record's table ids");
    }
    MUST(found->interval == head->interval, "the record's interval");
    MUST(found->start == head->start && found->blocks == head->blocks, "the record's start or blocks");
    MUST(found->scratch == 64 * head->blocks && found->output == head->output, "the record's lengths");
    MUST(found->work == head->work && found->colour == colour, "the record's work or colour");
}

struct truth learn(const struct input *in, const struct room *file) {
    struct truth truth = {0};
    uint64_t price = 2 * (uint64_t)file->length + 1;
    struct limits limits = {UINT64_MAX, UINT64_MAX, UINT64_MAX, price};
    /* the price of the head alone: number 2 then says that the head was read */
    tillsparrow_inspected seen = look(file, in->colour, &limits);
    MUST(seen.number >= 2 && seen.number <= 5 && seen.left == 0, "inspect at the price of the head");
    MUST(seen.block == 0 && seen.place == 0, "a place in a scan that was not read");
    truth.header = seen.number == 2 ? 0 : seen.number;
    if (truth.header != 0)
        return truth;
    truth.head = head_walk(file->at, file->length);
    limits.budget = UINT64_MAX;
    seen = look(file, in->colour, &limits);
    truth.scan = (struct answer){seen.number, seen.left, seen.block, seen.place};
    truth.accepted = seen.number == 0;
    truth.found = seen.found;
    check_scan(file, &truth.head, &truth.scan);
    if (truth.accepted)
        record_fits(&seen.found, &truth.head, in->colour);
    return truth;
}

struct limits chosen_limits(const struct input *in, const struct truth *truth) {
    const struct head *head = &truth->head;
    uint64_t side = head->width > head->height ? head->width : head->height;
    uint64_t samples = head->output > 64 * head->blocks ? head->output : 64 * head->blocks;
    uint64_t price = 2 * (uint64_t)in->length + 1 + (in->budget_choice & 8 ? 0 : head->work);
    struct limits limits;
    limits.input = input_near(in->limit_choice[0], in->length, in->numbers[0]);
    limits.side = input_near(in->limit_choice[1], side, in->numbers[1]);
    limits.output = input_near(in->limit_choice[2], samples, in->numbers[0] ^ in->numbers[1]);
    limits.budget = input_near(in->budget_choice, price, in->numbers[0]);
    return limits;
}

struct answer expected(const struct truth *truth, size_t length, const struct limits *limits) {
    const struct head *head = &truth->head;
    uint64_t price = 2 * (uint64_t)length + 1;
    if (length > limits->input)
        return (struct answer){1, limits->budget, 0, 0};
    if (limits->budget < price)
        return (struct answer){2, limits->budget, 0, 0};
    uint64_t left = limits->budget - price;
    if (truth->header != 0)
        return (struct answer){truth->header, left, 0, 0};
    if (head->width > limits->side || head->height > limits->side)
        return (struct answer){6, left, 0, 0};
    if (64 * head->blocks > limits->output || head->output > limits->output)
        return (struct answer){6, left, 0, 0};
    if (left < head->work)
        return (struct answer){2, left, 0, 0};
    return (struct answer){truth->scan.number, left - head->work, truth->scan.block, truth->scan.place};
}

void check_inspect(const struct input *in, const struct room *file, const struct truth *truth) {
    struct limits limits = chosen_limits(in, truth);
    struct answer want = expected(truth, file->length, &limits);
    tillsparrow_inspected seen = look(file, in->colour, &limits), again = look(file, in->colour, &limits);
    MUST(memcmp(&seen, &again, sizeof seen) == 0, "inspect answers twice differently");
    MUST(seen.number == want.number, "inspect answers another number than its limits and budget say");
    MUST(seen.left == want.left, "inspect takes another price");
    MUST(seen.block == want.block && seen.place == want.place, "inspect says otherwise where the scan broke");
    MUST(seen.number != 0 || memcmp(&seen.found, &truth->found, sizeof seen.found) == 0, "inspect's record hangs on its limits");
    feedback(INSPECT_NUMBER, seen.number);
}

static void comment_at(const struct room *file, const struct truth *truth, size_t i) {
    tillsparrow_part part = tillsparrow_comment(file->at, file->length, i);
    const struct head *head = &truth->head;
    struct part want = {0, 0};
    if (truth->accepted && i < head->comments && i < COMMENTS_KEPT)
        want = head->comment[i];
    if (truth->accepted && i >= COMMENTS_KEPT && i < head->comments)
        return; /* more comments than the harness keeps */
    MUST(part.at == want.at && part.length == want.length, "a comment's place or length");
    MUST(part.at + part.length <= head->start || !truth->accepted, "a comment reaches into the scan");
}

static void presence_of(const struct room *file, const struct truth *truth, size_t i, const struct limits *l) {
    tillsparrow_presence seen = tillsparrow_has_comment(file->at, file->length, i, l->input, l->side, l->output, l->budget);
    struct answer want = expected(truth, file->length, l);
    MUST(seen.number == want.number && seen.left == want.left, "has_comment answers with another number or price than inspect");
    MUST(seen.block == want.block && seen.place == want.place, "has_comment says otherwise than inspect where the scan broke");
    MUST(seen.there == (seen.number == 0 && i < truth->head.comments), "has_comment and the comments in the file");
    feedback(PRESENCE_NUMBER, 16 * seen.there + seen.number);
}

void check_comments(const struct input *in, const struct room *file, const struct truth *truth) {
    struct limits chosen = chosen_limits(in, truth);
    struct limits none = {UINT64_MAX, UINT64_MAX, UINT64_MAX, UINT64_MAX};
    size_t asked[] = {in->index % (truth->head.comments + 1), truth->head.comments, (size_t)in->numbers[0]};
    for (int i = 0; i < 3; i++)
        comment_at(file, truth, asked[i]);
    presence_of(file, truth, asked[in->index % 3], &chosen);
    presence_of(file, truth, asked[0], &none);
}
