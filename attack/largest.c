/* largest one: the largest file of one channel: 65,535 x 65,535, 8192 x 8192 blocks, most of them coded in two bits. It is inspected and
 * decoded through the archive, for real, and every sample of the picture and of the blocks is compared with what was coded.
 *
 * The first half of the blocks has the level 128, the second half 137, the last block 158: so that a place that wraps at 2^32 or
 * 2^31 shows. Both buffers end at a page that cannot be touched. Cut, the file says where it breaks.
 *
 * largest four: the largest file of all, of four channels at 1 x 1 with four times the blocks, each coded in two bits. It is inspected,
 * and settled to itself; its samples would take 34 GB, and are not decoded. */
#define _GNU_SOURCE
#include "tillsparrow.h"

#include <stdio.h>
#include <stdlib.h>
#include <string.h>
#include <sys/mman.h>
#include <time.h>

enum { SIDE = 65535, ACROSS = 8192, PAGE = 4096, FIRST = 128, SECOND = 137, LAST = 158, CHANNELS = 4 };

/* of one channel */
static const uint64_t BLOCKS = (uint64_t)ACROSS * ACROSS;
static const uint64_t SAMPLES = (uint64_t)SIDE * SIDE;

struct writer {
    uint8_t *bytes;
    size_t length;
    unsigned pending; /* bits that are not yet a byte */
    int count;
};

static void off(const char *text) {
    fprintf(stderr, "largest: %s\n", text);
    exit(1);
}

/* Processor time, with what the system takes to give the memory. */
static double now(void) {
    struct timespec t;
    clock_gettime(CLOCK_PROCESS_CPUTIME_ID, &t);
    return (double)t.tv_sec + (double)t.tv_nsec / 1e9;
}

/* A buffer whose last byte is followed by a page that faults. */
static uint8_t *room(uint64_t length) {
    size_t pages = (length + PAGE - 1) / PAGE * PAGE;
    uint8_t *all = mmap(NULL, pages + PAGE, PROT_READ | PROT_WRITE, MAP_PRIVATE | MAP_ANONYMOUS | MAP_NORESERVE, -1, 0);
    if (all == MAP_FAILED || mprotect(all + pages, PAGE, PROT_NONE) != 0)
        off("no memory for a buffer");
    return all + pages - length;
}

static void put_byte(struct writer *to, unsigned byte) { to->bytes[to->length++] = (uint8_t)byte; }

static void put_bytes(struct writer *to, const uint8_t *bytes, size_t length) {
    memcpy(to->bytes + to->length, bytes, length);
    to->length += length;
}

static void put_bits(struct writer *to, unsigned bits, int count) {
    while (count-- > 0) {
        to->pending = 2 * to->pending + ((bits >> count) & 1);
        if (++to->count < 8)
            continue;
        put_byte(to, to->pending);
        if (to->pending == 255)
            put_byte(to, 0);
        to->pending = 0;
        to->count = 0;
    }
}

/* Difference 0 is the code 0, a difference of five bits the code 10 and the bits; the code 0 ends a block. */
static void put_block(struct writer *to, unsigned difference) {
    if (difference == 0) {
        put_bits(to, 0, 2);
        return;
    }
    put_bits(to, 2, 2);
    put_bits(to, difference, 5);
    put_bits(to, 0, 1);
}

static void put_head(struct writer *to, unsigned channels) {
    static const uint8_t dc[] = {255, 196, 0, 21, 0, 1, 1, 0, 0, 0, 0, 0, 0, 0, 0, 0, 0, 0, 0, 0, 0, 0, 5};
    static const uint8_t ac[] = {255, 196, 0, 20, 16, 1, 0, 0, 0, 0, 0, 0, 0, 0, 0, 0, 0, 0, 0, 0, 0, 0};
    static const uint8_t opening[] = {255, 216, 255, 219, 0, 67, 0};
    const uint8_t frame[] = {255, 192, 0, (uint8_t)(8 + 3 * channels), 8, 255, 255, 255, 255, (uint8_t)channels};
    const uint8_t scan[] = {255, 218, 0, (uint8_t)(6 + 2 * channels), (uint8_t)channels};
    put_bytes(to, opening, sizeof opening);
    for (int i = 0; i < 64; i++)
        put_byte(to, 8); /* a level of 1 is a step of 1 in each sample */
    put_bytes(to, frame, sizeof frame);
    for (unsigned id = 1; id <= channels; id++)
        put_byte(to, id), put_byte(to, 17), put_byte(to, 0);
    put_bytes(to, dc, sizeof dc);
    put_bytes(to, ac, sizeof ac);
    put_bytes(to, scan, sizeof scan);
    for (unsigned id = 1; id <= channels; id++)
        put_byte(to, id), put_byte(to, 0);
    put_byte(to, 0), put_byte(to, 63), put_byte(to, 0);
}

/* Differences of five bits are 16 to 31, or -31 to -16 as 0 to 15; 137 is reached as 128 + 25 - 16. */
static void put_scan(struct writer *to) {
    for (uint64_t k = 0; k < BLOCKS / 2; k++)
        put_block(to, 0);
    put_bits(to, 2, 2), put_bits(to, 25, 5), put_bits(to, 0, 1);
    put_bits(to, 2, 2), put_bits(to, 15, 5), put_bits(to, 0, 1);
    for (uint64_t k = BLOCKS / 2 + 2; k < BLOCKS - 1; k++)
        put_block(to, 0);
    put_block(to, LAST - SECOND);
    if (to->count > 0)
        put_bits(to, 255, 8 - to->count);
    put_byte(to, 255), put_byte(to, 217);
}

/* The level of block k: the block in the middle is the one step of 25. */
static uint8_t level(uint64_t k) {
    if (k == BLOCKS / 2)
        return FIRST + 25;
    return k < BLOCKS / 2 ? FIRST : k < BLOCKS - 1 ? SECOND : LAST;
}

static void compare_blocks(const uint8_t *scratch) {
    uint8_t want[64];
    for (uint64_t k = 0; k < BLOCKS; k++) {
        memset(want, level(k), 64);
        if (memcmp(scratch + 64 * k, want, 64) != 0)
            off("a block has other samples than were coded");
    }
}

static void compare_picture(const uint8_t *output) {
    static uint8_t want[SIDE];
    for (uint64_t y = 0; y < SIDE; y++) {
        for (uint64_t x = 0; x < SIDE; x++)
            want[x] = level(y / 8 * ACROSS + x / 8);
        if (memcmp(output + y * SIDE, want, SIDE) != 0)
            off("a row of the picture has other samples than were coded");
    }
}

static void check_record(const tillsparrow_record *found) {
    if (found->width != SIDE || found->height != SIDE || found->channels != 1 || found->blocks != BLOCKS)
        off("inspect finds another picture");
    if (found->output != SAMPLES || found->scratch != 64 * BLOCKS || found->work != 3136 * BLOCKS + SAMPLES)
        off("inspect finds other lengths, or another work");
}

/* Cut where the first half of the blocks ends, four of them to a byte, and before the last marker: what it names counts as high as this. */
static void cuts(const uint8_t *bytes, size_t length, size_t start) {
    size_t half = start + BLOCKS / 8;
    tillsparrow_inspected seen = tillsparrow_inspect(bytes, half, false, length, SIDE, 64 * BLOCKS, UINT64_MAX);
    if (seen.number != TILLSPARROW_CUT_SHORT || seen.block != BLOCKS / 2 || seen.place != half)
        off("half of the file does not break in the block that follows");
    seen = tillsparrow_inspect(bytes, length - 2, false, length, SIDE, 64 * BLOCKS, UINT64_MAX);
    if (seen.number != TILLSPARROW_MALFORMED || seen.block != BLOCKS || seen.place != length - 2)
        off("the file without its last marker does not break behind its last block");
}

/* Inspect and decode at the exact price and one below it; what is left is exact. */
static void calls(const uint8_t *bytes, size_t length, uint8_t *output, uint8_t *scratch) {
    uint64_t price = 2 * (uint64_t)length + 1 + 3136 * BLOCKS + SAMPLES;
    double start = now();
    tillsparrow_inspected seen = tillsparrow_inspect(bytes, length, false, length, SIDE, 64 * BLOCKS, price + 5);
    double inspected = now();
    if (seen.number != 0 || seen.left != 5)
        off("inspect does not accept the file at its price");
    check_record(&seen.found);
    cuts(bytes, length, (size_t)seen.found.start);
    if (tillsparrow_inspect(bytes, length, false, length, SIDE, 64 * BLOCKS - 1, price).number != TILLSPARROW_TOO_LARGE)
        off("inspect accepts the file above the output limit");
    if (tillsparrow_decode(bytes, length, seen.found, output, SAMPLES - 1, scratch, 64 * BLOCKS, price).number != TILLSPARROW_SHORT_ROOM)
        off("decode accepts a short buffer");
    if (tillsparrow_decode(bytes, length, seen.found, output, SAMPLES, scratch, 64 * BLOCKS, price - 1).number != TILLSPARROW_OVER_BUDGET)
        off("decode accepts a budget below the price");
    double before = now();
    tillsparrow_decoded drawn = tillsparrow_decode(bytes, length, seen.found, output, SAMPLES, scratch, 64 * BLOCKS, price + 7);
    double after = now();
    if (drawn.number != 0 || drawn.left != 7)
        off("decode does not accept the file at its price");
    printf("largest: inspect %.2f s and decode %.2f s of processor time, price %llu\n", inspected - start, after - before,
           (unsigned long long)price);
}

/* ---- four channels */

/* Four blocks to a byte: each is two bits of 0. */
static void put_zeros(struct writer *to) {
    memset(to->bytes + to->length, 0, BLOCKS);
    to->length += BLOCKS;
    put_byte(to, 255), put_byte(to, 217);
}

static void check_four(const tillsparrow_record *found) {
    if (found->width != SIDE || found->height != SIDE || found->channels != CHANNELS || found->blocks != 268435456)
        off("inspect finds another picture of four channels");
    if (found->scratch != 17179869184 || found->output != 17179344900 || found->work != 858992934916)
        off("inspect finds other lengths of four channels, or another work");
    for (int i = 0; i < CHANNELS; i++)
        if (found->across[i] != 1 || found->down[i] != 1 || found->ids[i] != (uint64_t)i + 1)
            off("inspect finds other factors or ids of four channels");
}

/* Cut where half of the blocks are there, and before the last marker. */
static void cut_four(const uint8_t *bytes, size_t length, size_t start) {
    size_t half = start + BLOCKS / 2;
    tillsparrow_inspected seen = tillsparrow_inspect(bytes, half, false, length, SIDE, SIZE_MAX, UINT64_MAX);
    if (seen.number != TILLSPARROW_CUT_SHORT || seen.block != CHANNELS * BLOCKS / 2 || seen.place != half)
        off("half of four channels does not break in the block that follows");
    seen = tillsparrow_inspect(bytes, length - 2, false, length, SIDE, SIZE_MAX, UINT64_MAX);
    if (seen.number != TILLSPARROW_MALFORMED || seen.block != CHANNELS * BLOCKS || seen.place != length - 2)
        off("four channels without their last marker do not break behind the last block");
}

static int four(void) {
    struct writer to = {room((uint64_t)65 << 20), 0, 0, 0};
    put_head(&to, CHANNELS);
    put_zeros(&to);
    uint8_t *bytes = room(to.length), *settled = room(to.length);
    memcpy(bytes, to.bytes, to.length);
    uint64_t price = 2 * (uint64_t)to.length + 1 + 858992934916;
    double start = now();
    tillsparrow_inspected seen = tillsparrow_inspect(bytes, to.length, true, to.length, SIDE, 17179869184, price + 5);
    double inspected = now();
    if (seen.number != 0 || seen.left != 5)
        off("inspect does not accept four channels at their price");
    check_four(&seen.found);
    if (tillsparrow_inspect(bytes, to.length, true, to.length, SIDE, 17179869183, price).number != TILLSPARROW_TOO_LARGE)
        off("inspect accepts four channels above the output limit");
    if (tillsparrow_inspect(bytes, to.length, true, to.length, SIDE, 17179869184, price - 1).number != TILLSPARROW_OVER_BUDGET)
        off("inspect accepts four channels below their price");
    cut_four(bytes, to.length, (size_t)seen.found.start);
    double before = now();
    tillsparrow_settled made = tillsparrow_settle(bytes, to.length, to.length, SIDE, 17179869184, price, settled, to.length);
    double after = now();
    if (made.number != 0 || made.left != 0 || made.length != to.length || memcmp(bytes, settled, to.length) != 0)
        off("four channels do not settle to themselves");
    printf("largest: four channels, a file of %zu bytes, settled to itself; inspect %.2f s and settle %.2f s of processor time, price %llu\n",
           to.length, inspected - start, after - before, (unsigned long long)price);
    return 0;
}

static int one(void) {
    struct writer to = {room((uint64_t)17 << 20), 0, 0, 0};
    put_head(&to, 1);
    put_scan(&to);
    uint8_t *bytes = room(to.length);
    memcpy(bytes, to.bytes, to.length);
    uint8_t *output = room(SAMPLES);
    uint8_t *scratch = room(64 * BLOCKS);
    calls(bytes, to.length, output, scratch);
    compare_picture(output);
    compare_blocks(scratch);
    printf("largest: %d x %d, a file of %zu bytes, %llu samples and %llu of blocks as coded; first %d, middle %d, last %d\n", SIDE, SIDE,
           to.length, (unsigned long long)SAMPLES, (unsigned long long)(64 * BLOCKS), output[0], output[SAMPLES / 2 + SIDE],
           output[SAMPLES - 1]);
    return 0;
}

int main(int count, char **words) {
    if (count == 2 && strcmp(words[1], "four") == 0)
        return four();
    if (count == 2 && strcmp(words[1], "one") == 0)
        return one();
    off("takes four or one");
}
