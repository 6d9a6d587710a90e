/* The harness's own walk over a head that the archive has accepted, so without a test: the frame, the restart interval, the
 * comments and where the scan begins; and the prices that follow from the frame. */
#include "harness.h"

static uint64_t two_bytes(const uint8_t *file, size_t at) { return 256 * (uint64_t)file[at] + file[at + 1]; }

uint64_t upwards(uint64_t number, uint64_t by) { return (number + by - 1) / by; }

static bool is_factor(uint8_t nibble) { return nibble >= 1 && nibble <= 4; }

/* A single channel counts as 1 x 1. */
static void channel(struct head *head, size_t i, const uint8_t *component) {
    bool single = head->channels == 1;
    MUST(is_factor(component[1] / 16) && is_factor(component[1] % 16), "a factor outside 1 to 4 was accepted");
    MUST(component[2] <= 3, "a quantizer id above 3 was accepted");
    head->ids[i] = component[0];
    head->across[i] = single ? 1 : component[1] / 16;
    head->down[i] = single ? 1 : component[1] % 16;
    head->qids[i] = component[2];
    head->per += head->across[i] * head->down[i];
    for (size_t j = 0; j < i; j++)
        MUST(head->ids[j] != head->ids[i], "two channels of one id were accepted");
}

static void frame(struct head *head, const uint8_t *body) {
    head->height = two_bytes(body, 1);
    head->width = two_bytes(body, 3);
    head->channels = body[5];
    MUST(head->channels >= 1 && head->channels <= CHANNELS, "a frame of no channel, or of more than four, was accepted");
    for (size_t i = 0; i < head->channels; i++)
        channel(head, i, body + 6 + 3 * i);
    MUST(head->per <= 10, "more than ten blocks in an MCU were accepted");
}

static void scan(struct head *head, const uint8_t *body) {
    for (size_t i = 0; i < head->channels; i++) {
        head->dcids[i] = body[2 + 2 * i] / 16;
        head->acids[i] = body[2 + 2 * i] % 16;
    }
}

static void segment(struct head *head, const uint8_t *file, uint8_t code, size_t body, size_t end) {
    if (code == 192 || code == 193)
        frame(head, file + body);
    if (code == 218)
        scan(head, file + body);
    if (code == 221)
        head->interval = two_bytes(file, body);
    if (code != 254)
        return;
    if (head->comments < COMMENTS_KEPT)
        head->comment[head->comments] = (struct part){body, end - body};
    head->comments++;
}

static uint64_t largest(const uint64_t factors[CHANNELS]) {
    uint64_t most = 0;
    for (size_t i = 0; i < CHANNELS; i++)
        most = factors[i] > most ? factors[i] : most;
    return most;
}

static void measure(struct head *head) {
    uint64_t mcus = upwards(head->width, 8 * largest(head->across)) * upwards(head->height, 8 * largest(head->down));
    head->blocks = mcus * head->per;
    head->output = head->width * head->height * head->channels;
    head->work = 3136 * head->blocks + head->output;
}

struct head head_walk(const uint8_t *file, size_t length) {
    struct head head = {0};
    size_t at = 2;
    for (;;) {
        while (at + 1 < length && file[at + 1] == 255)
            at++;
        MUST(at + 4 <= length && file[at] == 255, "a head that cannot be walked was accepted");
        uint8_t code = file[at + 1];
        size_t end = at + 2 + (size_t)two_bytes(file, at + 2);
        MUST(end <= length, "a segment past the file's end was accepted");
        segment(&head, file, code, at + 4, end);
        at = end;
        if (code == 218)
            break;
    }
    head.start = at;
    measure(&head);
    return head;
}
