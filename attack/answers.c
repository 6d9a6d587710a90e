/* Answers a run of cases (tests/reference/README.md) through the archive, a line for each case, so that the calls from C are compared
 * like the program `test_answers` is. tests/answers builds and runs it. Exit status: 0 where the input ended behind a case, 1 for a bad
 * case, 2 where a stream failed. */
#include "tillsparrow.h"

#include <stdio.h>
#include <stdlib.h>
#include <string.h>

enum { MOST = 262144, HEAD = 9, NUMBERS = 46 };

struct request {
    uint64_t job, colour, input, side, output, budget, room, scratch_room, length;
};

static uint8_t file[MOST], output[MOST], scratch[MOST];

static uint64_t big(const uint8_t *bytes) {
    uint64_t number = 0;
    for (int i = 0; i < 8; i++)
        number = 256 * number + bytes[i];
    return number;
}

/* So many numbers of the input; false where it ends before. */
static bool numbers(uint64_t *into, size_t count, bool *ended) {
    uint8_t bytes[8 * NUMBERS];
    size_t got = fread(bytes, 1, 8 * count, stdin);
    *ended = got == 0;
    for (size_t i = 0; i < count && got == 8 * count; i++)
        into[i] = big(bytes + 8 * i);
    return got == 8 * count;
}

/* What lies in the buffers before a call. */
static void fill(const struct request *r) {
    static uint8_t first[MOST], second[MOST];
    for (uint64_t i = 0; i < MOST && first[1] == 0; i++) {
        first[MOST - 1 - i] = (uint8_t)(11 * (MOST - 1 - i) % 253);
        second[MOST - 1 - i] = (uint8_t)(7 * (MOST - 1 - i) % 251);
    }
    memcpy(output, first, r->room);
    memcpy(scratch, second, r->scratch_room);
}

static uint32_t adler(const uint8_t *bytes, uint64_t length) {
    uint32_t low = 1, high = 0;
    for (uint64_t i = 0; i < length; i++) {
        low += bytes[i];
        high += low;
        if (i % 4096 == 4095)
            low %= 65521, high %= 65521;
    }
    return 65536 * (high % 65521) + low % 65521;
}

#define NUMBER(n) ((unsigned long long)(n))

static tillsparrow_inspected look(const struct request *r) {
    return tillsparrow_inspect(file, r->length, r->colour == 1, r->input, r->side, r->output, r->budget);
}

static void inspect(const struct request *r) {
    tillsparrow_inspected seen = look(r);
    uint64_t found[NUMBERS];
    memcpy(found, &seen.found, sizeof found);
    printf("1 %llu %llu %llu %llu", NUMBER(seen.number), NUMBER(seen.left), NUMBER(seen.block), NUMBER(seen.place));
    for (int i = 0; i < NUMBERS; i++)
        printf(" %llu", NUMBER(found[i]));
    printf("\n");
}

static void decode(const struct request *r, tillsparrow_record found) {
    fill(r);
    tillsparrow_decoded drawn = tillsparrow_decode(file, r->length, found, output, r->room, scratch, r->scratch_room, r->budget);
    printf("%llu %llu %llu %u %u\n", NUMBER(r->job), NUMBER(drawn.number), NUMBER(drawn.left), adler(output, r->room),
           adler(scratch, r->scratch_room));
}

static void settle(const struct request *r) {
    fill(r);
    tillsparrow_settled written = tillsparrow_settle(file, r->length, r->input, r->side, r->output, r->budget, output, r->room);
    printf("3 %llu %llu %llu %llu %llu %u\n", NUMBER(written.number), NUMBER(written.left), NUMBER(written.block), NUMBER(written.place),
           NUMBER(written.length), adler(output, r->room));
}

static tillsparrow_record own_record(const struct request *r) {
    return tillsparrow_inspect(file, r->length, r->colour == 1, SIZE_MAX, SIZE_MAX, SIZE_MAX, UINT64_MAX).found;
}

/* False where the record that job 4 wants is cut, or has a colour that is none. */
static bool answer(const struct request *r) {
    tillsparrow_record given;
    uint64_t list[NUMBERS];
    bool ended;
    switch (r->job) {
    case 1: inspect(r); return true;
    case 2: decode(r, own_record(r)); return true;
    case 3: settle(r); return true;
    default: break;
    }
    if (!numbers(list, NUMBERS, &ended) || list[NUMBERS - 1] > 1)
        return false;
    memcpy(&given, list, sizeof given);
    decode(r, given);
    return true;
}

/* A job that is known, and no number above the rooms that are here. */
static bool sound(const struct request *r) {
    return r->job >= 1 && r->job <= 4 && r->colour <= 1 && r->length <= MOST && r->room <= MOST && r->scratch_room <= MOST;
}

int main(void) {
    struct request request;
    uint64_t head[HEAD];
    bool ended;
    while (numbers(head, HEAD, &ended)) {
        memcpy(&request, head, sizeof request);
        if (!sound(&request) || fread(file, 1, request.length, stdin) != request.length || !answer(&request))
            break;
    }
    if (!ended)
        printf("bad case\n");
    if (ferror(stdin) || fflush(stdout) != 0 || ferror(stdout)) {
        fprintf(stderr, "answers: standard input or output failed\n");
        return 2;
    }
    return ended ? 0 : 1;
}
