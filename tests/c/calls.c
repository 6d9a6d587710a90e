/* The calls on one file, as a program in C meets them.
 *
 *   calls FILE RECORD PICTURE [COMMENT...]   a file that is accepted: RECORD has its 46 numbers as text, each COMMENT the text of one
 *                                            comment; the picture is written to PICTURE, PPM or PGM; one of two or four channels as a
 *                                            PGM as many times as wide, channels interleaved
 *   calls --refused NUMBER SPENT BLOCK PLACE FILE
 *                                            a file that is refused, what it takes from the budget, and where its scan broke, which is
 *                                            0 and 0 where it was not read
 *   calls --cuts FILE BREAKS                 a file that is accepted; BREAKS has as text, for each byte of its scan, the number, the
 *                                            block and the place of the file that ends before that byte
 *   calls --no-end-code FILE                 a file that is accepted and that settle refuses 9
 *   calls --same PLAIN FILLED                two files that are accepted, the second being the first with fill bytes in its scan
 *
 * Prints how many facts held, or the first that did not, with exit status 1.
 */
#include "tillsparrow.h"
#include "lent.h"

#define NUMBERS 46
#define PLENTY UINT64_MAX

enum place { SCRATCH = 42, OUTPUT = 43, WORK = 44, COLOUR = 45 };

struct limits {
    size_t input, side, output;
};

/* The file in hand, the record that it must have, and its two prices: 2n + 1, and that with the work. */
struct subject {
    struct lent file;
    tillsparrow_record record;
    uint64_t head, price;
};

/* Where a scan broke; 0 and 0 for every other answer. */
struct named {
    uint64_t block, place;
};

static const struct limits unlimited = {SIZE_MAX, SIZE_MAX, SIZE_MAX};
static const struct named nothing = {0, 0};

static void numbers_of(tillsparrow_record record, uint64_t numbers[NUMBERS]) {
    memcpy(numbers, &record, sizeof record);
}

static tillsparrow_record record_of(const uint64_t numbers[NUMBERS]) {
    tillsparrow_record record;
    memcpy(&record, numbers, sizeof record);
    return record;
}

static tillsparrow_record changed(tillsparrow_record record, size_t place, uint64_t value) {
    uint64_t numbers[NUMBERS];
    numbers_of(record, numbers);
    numbers[place] = value;
    return record_of(numbers);
}

static void hold_record(tillsparrow_record given, tillsparrow_record wanted, const char *what) {
    uint64_t one[NUMBERS], other[NUMBERS];
    numbers_of(given, one);
    numbers_of(wanted, other);
    for (size_t i = 0; i < NUMBERS; i++)
        hold(one[i] == other[i], "%s: number %zu of the record is %llu, and not %llu", what, i, (unsigned long long)one[i],
             (unsigned long long)other[i]);
}

static void hold_answer(uint64_t number, uint64_t left, uint64_t wanted, uint64_t wanted_left, const char *what) {
    hold(number == wanted, "%s answers %llu, and not %llu", what, (unsigned long long)number, (unsigned long long)wanted);
    hold(left == wanted_left, "%s leaves %llu of the budget, and not %llu", what, (unsigned long long)left,
         (unsigned long long)wanted_left);
}

static void hold_named(uint64_t block, uint64_t place, struct named wanted, const char *what) {
    hold(block == wanted.block, "%s names the block %llu, and not %llu", what, (unsigned long long)block, (unsigned long long)wanted.block);
    hold(place == wanted.place, "%s names the place %llu, and not %llu", what, (unsigned long long)place, (unsigned long long)wanted.place);
}

/* ---- inspect, settle and has_comment admit a file alike */

static void hold_inspected(const struct subject *s, bool colour, struct limits l, uint64_t budget, uint64_t number, uint64_t left,
                           struct named named) {
    tillsparrow_inspected seen = tillsparrow_inspect(s->file.bytes, s->file.length, colour, l.input, l.side, l.output, budget);
    tillsparrow_record none = {0};
    hold_answer(seen.number, seen.left, number, left, "inspect");
    hold_named(seen.block, seen.place, named, "inspect");
    hold_record(seen.found, number == 0 ? changed(s->record, COLOUR, colour) : none, "inspect");
}

static void hold_told(const struct subject *s, struct limits l, uint64_t budget, uint64_t number, uint64_t left, struct named named) {
    hold_inspected(s, false, l, budget, number, left, named);
    hold_inspected(s, true, l, budget, number, left, named);
    tillsparrow_presence seen = tillsparrow_has_comment(s->file.bytes, s->file.length, SIZE_MAX, l.input, l.side, l.output, budget);
    hold_answer(seen.number, seen.left, number, left, "has_comment");
    hold_named(seen.block, seen.place, named, "has_comment");
    hold(seen.there == 0, "comment 2^64 - 1 is said to be there");
    struct lent room = lend_filled(0, 0);
    tillsparrow_settled made =
        tillsparrow_settle(s->file.bytes, s->file.length, l.input, l.side, l.output, budget, room.bytes, room.length);
    hold_answer(made.number, made.left, number == 0 ? 7 : number, left, "settle with no room");
    hold_named(made.block, made.place, named, "settle with no room");
    hold((made.length != 0) == (number == 0), "settle with no room says length %llu", (unsigned long long)made.length);
    give_back(room);
}

/* What is accepted, or refused before the scan is read. */
static void hold_admitted(const struct subject *s, struct limits l, uint64_t budget, uint64_t number, uint64_t left) {
    hold_told(s, l, budget, number, left, nothing);
}

static void test_budgets(const struct subject *s) {
    hold_admitted(s, unlimited, PLENTY, 0, PLENTY - s->price);
    hold_admitted(s, unlimited, s->price + 1, 0, 1);
    hold_admitted(s, unlimited, s->price, 0, 0);
    hold_admitted(s, unlimited, s->price - 1, 2, s->record.work - 1);
    hold_admitted(s, unlimited, s->head, 2, 0);
    hold_admitted(s, unlimited, s->head - 1, 2, s->head - 1);
    hold_admitted(s, unlimited, 0, 2, 0);
}

static void test_limits(const struct subject *s) {
    uint64_t side = s->record.width > s->record.height ? s->record.width : s->record.height;
    uint64_t samples = s->record.output > s->record.scratch ? s->record.output : s->record.scratch;
    struct limits tight = {s->file.length, (size_t)side, (size_t)samples};
    struct limits input = tight, sides = tight, output = tight;
    input.input--;
    sides.side--;
    output.output--;
    hold_admitted(s, tight, s->price, 0, 0);
    hold_admitted(s, input, PLENTY, 1, PLENTY);
    hold_admitted(s, input, 0, 1, 0);
    hold_admitted(s, sides, PLENTY, 6, PLENTY - s->head);
    hold_admitted(s, output, PLENTY, 6, PLENTY - s->head);
    /* a price that is not paid is seen behind the limits where it is the scan's, before them where it is the header's */
    hold_admitted(s, sides, s->head, 6, 0);
    hold_admitted(s, sides, s->head - 1, 2, s->head - 1);
}

/* ---- decode */

/* What decode must answer, by the rules in their order. */
static uint64_t due_number(const struct subject *s, tillsparrow_record given, size_t output, size_t scratch, uint64_t budget) {
    if (output < given.output || scratch < given.scratch)
        return 7;
    if (budget < s->head || budget - s->head < given.work)
        return 2;
    tillsparrow_record plain = changed(given, COLOUR, s->record.colour);
    return given.colour <= 1 && memcmp(&plain, &s->record, sizeof plain) == 0 ? 0 : 8;
}

static uint64_t due_left(const struct subject *s, tillsparrow_record given, uint64_t number, uint64_t budget) {
    return number == 7 || number == 2 ? budget : budget - s->head - given.work;
}

/* A refusal leaves both buffers as they were. */
static void hold_refused(const struct subject *s, tillsparrow_record given, size_t output, size_t scratch, uint64_t budget,
                         uint64_t number) {
    struct lent picture = lend_filled(output, 165), blocks = lend_filled(scratch, 90);
    tillsparrow_decoded drawn =
        tillsparrow_decode(s->file.bytes, s->file.length, given, picture.bytes, output, blocks.bytes, scratch, budget);
    hold(number == due_number(s, given, output, scratch, budget), "the test is wrong: number %llu is not due", (unsigned long long)number);
    hold_answer(drawn.number, drawn.left, number, due_left(s, given, number, budget), "decode");
    hold(is_filled(picture.bytes, output, 165), "decode refuses %llu and has changed the output", (unsigned long long)number);
    hold(is_filled(blocks.bytes, scratch, 90), "decode refuses %llu and has changed the scratch", (unsigned long long)number);
    give_back(picture);
    give_back(blocks);
}

/* One number of the record is another. The three that are looked at before the record is compared are refused 7 or 2 where they have
 * grown, and 8 with the room or the budget that they then ask for. A choice of colour that is none is 8. */
static void test_changed_number(const struct subject *s, size_t place, uint64_t value) {
    tillsparrow_record given = changed(s->record, place, value);
    uint64_t numbers[NUMBERS];
    numbers_of(s->record, numbers);
    size_t output = (size_t)s->record.output, scratch = (size_t)s->record.scratch;
    bool more = value > numbers[place];
    uint64_t number = !more ? 8 : place == OUTPUT || place == SCRATCH ? 7 : place == WORK ? 2 : 8;
    hold_refused(s, given, output, scratch, s->price, number);
    if (number != 8 && value == numbers[place] + 1)
        hold_refused(s, given, output + 1, scratch + 1, s->price + 1, 8);
}

static void test_changed_numbers(const struct subject *s) {
    uint64_t numbers[NUMBERS];
    numbers_of(s->record, numbers);
    for (size_t place = 0; place < NUMBERS; place++) {
        test_changed_number(s, place, numbers[place] + 1);
        test_changed_number(s, place, PLENTY);
        /* one less of a colour choice of 1 is the other choice, which decode takes */
        if (place != COLOUR)
            test_changed_number(s, place, numbers[place] - 1);
    }
}

/* A record with other factors is the file's only where they are the same. */
static void hold_other_factors(const struct subject *s, tillsparrow_record given) {
    if (memcmp(&given, &s->record, sizeof given) != 0)
        hold_refused(s, given, (size_t)given.output, (size_t)given.scratch, PLENTY, 8);
}

/* Across and down of a channel exchanged, the factors of two channels exchanged, and another number of channels, the last of 1 x 1. */
static void test_other_factors(const struct subject *s) {
    for (size_t c = 0; c < 4; c++) {
        tillsparrow_record turned = s->record, moved = s->record, more = s->record;
        size_t next = (c + 1) % 4;
        turned.across[c] = s->record.down[c], turned.down[c] = s->record.across[c];
        moved.across[c] = s->record.across[next], moved.across[next] = s->record.across[c];
        moved.down[c] = s->record.down[next], moved.down[next] = s->record.down[c];
        more.channels = c + 1, more.across[c] = 1, more.down[c] = 1;
        hold_other_factors(s, turned);
        hold_other_factors(s, moved);
        hold_other_factors(s, more);
    }
}

static void test_rooms_and_budgets(const struct subject *s) {
    size_t output = (size_t)s->record.output, scratch = (size_t)s->record.scratch;
    hold_refused(s, s->record, output - 1, scratch, PLENTY, 7);
    hold_refused(s, s->record, output, scratch - 1, PLENTY, 7);
    hold_refused(s, s->record, 0, 0, PLENTY, 7);
    hold_refused(s, s->record, output - 1, scratch, 0, 7);
    hold_refused(s, s->record, output, scratch, s->price - 1, 2);
    hold_refused(s, s->record, output, scratch, s->head - 1, 2);
    hold_refused(s, s->record, output, scratch, 0, 2);
    tillsparrow_record none = {0};
    hold_refused(s, none, 0, 0, PLENTY, 8);
    /* the file is cut by its last byte, and the record is still the head's */
    struct subject cut = *s;
    cut.file = lend_for_reading(s->file.bytes, s->file.length - 1);
    cut.head -= 2;
    cut.record = none;
    hold_refused(&cut, s->record, output, scratch, s->price, 8);
    give_back(cut.file);
}

/* Draws with buffers longer than needed by `more`, filled with `value`: what is behind the record's lengths stays. */
static struct lent draw(const struct subject *s, tillsparrow_record given, size_t more, int value, struct lent *blocks) {
    size_t output = (size_t)given.output, scratch = (size_t)given.scratch;
    struct lent picture = lend_filled(output + more, value);
    *blocks = lend_filled(scratch + more, value);
    tillsparrow_decoded drawn = tillsparrow_decode(s->file.bytes, s->file.length, given, picture.bytes, picture.length, blocks->bytes,
                                                   blocks->length, s->price + more);
    hold_answer(drawn.number, drawn.left, 0, more, "decode");
    hold(is_filled(picture.bytes + output, more, value), "decode writes behind the picture");
    hold(is_filled(blocks->bytes + scratch, more, value), "decode writes behind the samples of the blocks");
    return picture;
}

static void write_picture(const struct subject *s, struct lent picture, const char *name) {
    FILE *file = fopen(name, "wb");
    bool coloured = s->record.channels == 3;
    hold(file != NULL, "%s cannot be written", name);
    fprintf(file, "P%d\n%llu %llu\n255\n", coloured ? 6 : 5, (unsigned long long)(s->record.width * (coloured ? 1 : s->record.channels)),
            (unsigned long long)s->record.height);
    hold(fwrite(picture.bytes, 1, (size_t)s->record.output, file) == s->record.output && fclose(file) == 0, "%s cannot be written", name);
}

static uint64_t largest(const uint64_t factors[4], uint64_t channels) {
    uint64_t most = 0;
    for (size_t c = 0; c < channels; c++)
        most = factors[c] > most ? factors[c] : most;
    return most;
}

/* The sample of a channel that a pixel shows: in the pixel's MCU, at its place there times the channel's factor by the largest. */
static uint8_t sample_at(const tillsparrow_record *r, const uint8_t *blocks, uint64_t x, uint64_t y, size_t channel) {
    uint64_t wide = 8 * largest(r->across, r->channels), high = 8 * largest(r->down, r->channels), per = 0, before = 0;
    for (size_t c = 0; c < r->channels; c++) {
        before += c < channel ? r->across[c] * r->down[c] : 0;
        per += r->across[c] * r->down[c];
    }
    uint64_t mcu = y / high * ((r->width + wide - 1) / wide) + x / wide;
    uint64_t u = x % wide * r->across[channel] / (wide / 8), v = y % high * r->down[channel] / (high / 8);
    uint64_t block = mcu * per + before + v / 8 * r->across[channel] + u / 8;
    return blocks[64 * block + 8 * (v % 8) + u % 8];
}

static uint8_t rounded(int64_t sum) {
    int64_t whole = sum + 32768 < 0 ? 0 : (sum + 32768) / 65536;
    return (uint8_t)(whole > 255 ? 255 : whole);
}

/* Red, green and blue of the three samples of a pixel. */
static bool is_in_colour(const uint8_t *pixel, const uint8_t *coded) {
    int64_t luma = 65536 * (int64_t)coded[0], cb = coded[1] - 128, cr = coded[2] - 128;
    return pixel[0] == rounded(luma + 91881 * cr) && pixel[1] == rounded(luma - 22554 * cb - 46802 * cr) &&
           pixel[2] == rounded(luma + 116130 * cb);
}

/* Of the picture as it is coded every sample is that of a block, by the rule; in colour are three channels, and no others. */
static void test_places(const struct subject *s, struct lent picture, struct lent coded, struct lent blocks) {
    const tillsparrow_record *r = &s->record;
    bool placed = true, same = true;
    for (uint64_t i = 0; i < r->width * r->height; i++) {
        const uint8_t *pixel = coded.bytes + i * r->channels;
        for (size_t c = 0; c < r->channels; c++)
            placed = placed && pixel[c] == sample_at(r, blocks.bytes, i % r->width, i / r->width, c);
        same = same && (r->channels != 3 || is_in_colour(picture.bytes + 3 * i, pixel));
    }
    hold(placed, "a pixel has another sample than that of its place");
    hold(same, "a pixel has another colour than that of its samples");
    hold(r->channels == 3 || same_bytes(picture, coded, (size_t)r->output), "%llu channels are in colour", (unsigned long long)r->channels);
}

/* Every byte is written, whatever was there; the other choice of colour has the same samples of blocks. */
static struct lent test_drawing(const struct subject *s, const char *name) {
    size_t output = (size_t)s->record.output, scratch = (size_t)s->record.scratch;
    struct lent blocks, again_blocks, coded_blocks;
    struct lent picture = draw(s, s->record, 0, 0, &blocks);
    struct lent again = draw(s, s->record, 9, 255, &again_blocks);
    struct lent coded = draw(s, changed(s->record, COLOUR, 0), 0, 0, &coded_blocks);
    hold(same_bytes(picture, again, output) && same_bytes(blocks, again_blocks, scratch), "decode does not write every byte");
    hold(same_bytes(blocks, coded_blocks, scratch), "the samples of the blocks depend on the choice of colour");
    test_places(s, picture, coded, blocks);
    write_picture(s, picture, name);
    give_back(blocks), give_back(again_blocks), give_back(coded_blocks), give_back(again), give_back(coded);
    return picture;
}

/* ---- settle */

static tillsparrow_settled settle_into(struct lent file, struct lent room, uint64_t budget) {
    return tillsparrow_settle(file.bytes, file.length, SIZE_MAX, SIZE_MAX, SIZE_MAX, budget, room.bytes, room.length);
}

static struct lent settle_in(const struct subject *s, size_t length, size_t room) {
    struct lent made = lend_filled(room, 165);
    tillsparrow_settled answer = settle_into(s->file, made, s->price);
    hold_answer(answer.number, answer.left, room < length ? 7 : 0, 0, "settle");
    hold_named(answer.block, answer.place, nothing, "settle");
    hold(answer.length == length, "settle says length %llu, and not %zu", (unsigned long long)answer.length, length);
    size_t kept = room < length ? 0 : length;
    hold(is_filled(made.bytes + kept, room - kept, 165), "settle has changed bytes that it may not");
    return made;
}

/* The settled file has the record and the picture of the file, and settles to itself. */
static void test_settling(const struct subject *s, struct lent picture) {
    struct lent none = lend(0);
    size_t length = (size_t)settle_into(s->file, none, PLENTY).length;
    hold(length != 0, "settle says no length");
    struct lent exact = settle_in(s, length, length);
    give_back(settle_in(s, length, length - 1));
    give_back(settle_in(s, length, length + 5));
    struct subject settled = *s;
    settled.file = lend_for_reading(exact.bytes, length);
    settled.head = 2 * (uint64_t)length + 1;
    settled.price = settled.head + s->record.work;
    hold_inspected(&settled, true, unlimited, settled.price, 0, 0, nothing);
    struct lent blocks, other = draw(&settled, s->record, 0, 0, &blocks);
    hold(same_bytes(picture, other, picture.length), "the settled file has another picture");
    struct lent again = settle_in(&settled, length, length);
    hold(same_bytes(exact, again, length), "the settled file settles to other bytes");
    give_back(none), give_back(exact), give_back(settled.file), give_back(blocks), give_back(other), give_back(again);
}

/* ---- comments */

static uint64_t presence(const struct subject *s, size_t i) {
    tillsparrow_presence seen =
        tillsparrow_has_comment(s->file.bytes, s->file.length, i, SIZE_MAX, SIZE_MAX, SIZE_MAX, s->price);
    hold_answer(seen.number, seen.left, 0, 0, "has_comment");
    hold_named(seen.block, seen.place, nothing, "has_comment");
    return seen.there;
}

static void test_comments(const struct subject *s, size_t count, char **names) {
    for (size_t i = 0; i < count; i++) {
        struct lent text = read_file(names[i]);
        tillsparrow_part part = tillsparrow_comment(s->file.bytes, s->file.length, i);
        hold(part.length == text.length, "comment %zu has %llu bytes, and not %zu", i, (unsigned long long)part.length, text.length);
        hold(part.at + part.length <= s->record.start, "comment %zu is not before the scan", i);
        hold(memcmp(s->file.bytes + part.at, text.bytes, text.length) == 0, "comment %zu has another text", i);
        hold(presence(s, i) == 1, "comment %zu is said not to be there", i);
        give_back(text);
    }
    const size_t behind[] = {count, count + 1, SIZE_MAX};
    for (size_t i = 0; i < 3; i++) {
        tillsparrow_part part = tillsparrow_comment(s->file.bytes, s->file.length, behind[i]);
        hold(part.at == 0 && part.length == 0, "comment %zu has a place", behind[i]);
        hold(presence(s, behind[i]) == 0, "comment %zu is said to be there", behind[i]);
    }
}

/* ---- the uses */

static tillsparrow_record read_record(const char *name) {
    uint64_t numbers[NUMBERS];
    FILE *file = fopen(name, "r");
    hold(file != NULL, "%s cannot be read", name);
    for (size_t i = 0; i < NUMBERS; i++) {
        unsigned long long number;
        hold(fscanf(file, "%llu", &number) == 1, "%s has no number %zu", name, i);
        numbers[i] = number;
    }
    fclose(file);
    return record_of(numbers);
}

static void test_accepted(const char *name, const char *record, const char *drawn, size_t count, char **comments) {
    struct subject s = {read_file(name), read_record(record), 0, 0};
    s.head = 2 * (uint64_t)s.file.length + 1;
    s.price = s.head + s.record.work;
    test_budgets(&s);
    test_limits(&s);
    test_changed_numbers(&s);
    test_other_factors(&s);
    test_rooms_and_budgets(&s);
    struct lent picture = test_drawing(&s, drawn);
    test_settling(&s, picture);
    test_comments(&s, count, comments);
    give_back(picture);
    give_back(s.file);
}

/* What is refused writes nothing, however much room it is lent. */
static void test_nothing_written(const struct subject *s, uint64_t number, uint64_t spent, struct named named) {
    tillsparrow_record other = {.output = 64, .scratch = 64};
    struct lent room = lend_filled(4 * s->file.length + 4096, 165);
    tillsparrow_settled made = settle_into(s->file, room, PLENTY);
    hold_answer(made.number, made.left, number, PLENTY - spent, "settle");
    hold_named(made.block, made.place, named, "settle");
    hold(made.length == 0, "settle refuses %llu and says length %llu", (unsigned long long)number, (unsigned long long)made.length);
    hold(is_filled(room.bytes, room.length, 165), "settle refuses %llu and has changed the buffer", (unsigned long long)number);
    hold_refused(s, other, 64, 64, PLENTY, 8);
    give_back(room);
}

/* What stops a call before it reads the scan is told in place of how the scan breaks, and names nothing. */
static void test_before_the_scan(const struct subject *s, uint64_t spent) {
    struct limits input = unlimited, sides = unlimited, output = unlimited;
    input.input = s->file.length - 1;
    sides.side = 0;
    output.output = 63;
    hold_admitted(s, input, PLENTY, 1, PLENTY);
    hold_admitted(s, unlimited, s->head - 1, 2, s->head - 1);
    hold_admitted(s, sides, PLENTY, 6, PLENTY - s->head);
    hold_admitted(s, output, PLENTY, 6, PLENTY - s->head);
    hold_admitted(s, unlimited, spent - 1, 2, spent - 1 - s->head);
}

static void test_refused(uint64_t number, uint64_t spent, struct named named, const char *name) {
    tillsparrow_record none = {0};
    /* no record is the file's; the subject has one that is not given */
    struct subject s = {read_file(name), {.width = 1}, 0, 0};
    s.head = 2 * (uint64_t)s.file.length + 1;
    hold_told(&s, unlimited, PLENTY, number, PLENTY - spent, named);
    hold_told(&s, unlimited, spent, number, 0, named);
    if (spent > s.head)
        test_before_the_scan(&s, spent);
    hold_refused(&s, none, 0, 0, PLENTY, 8);
    test_nothing_written(&s, number, spent, named);
    for (size_t i = 0; i < 2; i++) {
        tillsparrow_part part = tillsparrow_comment(s.file.bytes, s.file.length, i);
        hold(part.at == 0 && part.length == 0, "a refused file has comment %zu", i);
    }
    give_back(s.file);
}

static void test_no_end_code(const char *name) {
    struct lent file = read_file(name), room = lend_filled(4 * file.length + 4096, 165);
    tillsparrow_inspected seen = tillsparrow_inspect(file.bytes, file.length, true, SIZE_MAX, SIZE_MAX, SIZE_MAX, PLENTY);
    hold(seen.number == 0, "inspect answers %llu", (unsigned long long)seen.number);
    tillsparrow_settled made = settle_into(file, room, PLENTY);
    hold_answer(made.number, made.left, 9, seen.left, "settle");
    hold_named(made.block, made.place, nothing, "settle");
    hold(made.length == 0, "settle refuses 9 and says length %llu", (unsigned long long)made.length);
    hold(is_filled(room.bytes, room.length, 165), "settle refuses 9 and has changed the buffer");
    give_back(file);
    give_back(room);
}

/* A file by its own name, with the record and the prices that inspect finds. */
static struct subject look_at(const char *name) {
    struct subject s = {read_file(name), {0}, 0, 0};
    tillsparrow_inspected seen = tillsparrow_inspect(s.file.bytes, s.file.length, true, SIZE_MAX, SIZE_MAX, SIZE_MAX, PLENTY);
    hold(seen.number == 0, "inspect answers %llu to %s", (unsigned long long)seen.number, name);
    s.record = seen.found;
    s.head = 2 * (uint64_t)s.file.length + 1;
    s.price = s.head + s.record.work;
    hold(seen.left == PLENTY - s.price, "inspect takes %llu for %s", (unsigned long long)(PLENTY - seen.left), name);
    return s;
}

/* Fill bytes are in no record and in no picture, and settling leaves them out: the longer file costs 2 more for each, and that is all. */
static void test_same(const char *plain, const char *filled) {
    struct subject one = look_at(plain), other = look_at(filled);
    hold(other.file.length > one.file.length, "there is no fill byte");
    hold_record(other.record, one.record, "inspect");
    struct lent blocks, other_blocks;
    struct lent picture = draw(&one, one.record, 0, 0, &blocks), other_picture = draw(&other, one.record, 0, 255, &other_blocks);
    hold(same_bytes(picture, other_picture, picture.length), "fill bytes change the picture");
    hold(same_bytes(blocks, other_blocks, blocks.length), "fill bytes change the samples of the blocks");
    struct lent none = lend(0);
    size_t length = (size_t)settle_into(one.file, none, PLENTY).length;
    struct lent made = settle_in(&one, length, length), other_made = settle_in(&other, length, length);
    hold(same_bytes(made, other_made, length), "fill bytes change the settled file");
    give_back(one.file), give_back(other.file), give_back(blocks), give_back(other_blocks), give_back(picture), give_back(other_picture);
    give_back(none), give_back(made), give_back(other_made);
}

/* The next number of a text. */
static uint64_t next_of(FILE *file, const char *name) {
    unsigned long long number;
    hold(fscanf(file, "%llu", &number) == 1, "%s has no more numbers", name);
    return number;
}

/* The file cut before each byte of its scan. */
static void test_cuts(const char *name, const char *breaks) {
    struct subject whole = look_at(name);
    FILE *file = fopen(breaks, "r");
    hold(file != NULL, "%s cannot be read", breaks);
    for (size_t length = (size_t)whole.record.start; length < whole.file.length; length++) {
        struct subject s = {lend_for_reading(whole.file.bytes, length), {0}, 2 * (uint64_t)length + 1, 0};
        uint64_t number = next_of(file, breaks), block = next_of(file, breaks), place = next_of(file, breaks);
        hold_told(&s, unlimited, s.head + whole.record.work, number, 0, (struct named){block, place});
        give_back(s.file);
    }
    hold(fscanf(file, "%*s") == EOF, "%s has numbers of more cuts than there are", breaks);
    fclose(file);
    give_back(whole.file);
}

static uint64_t number_in(const char *word) { return strtoull(word, NULL, 10); }

int main(int count, char **words) {
    in_hand = words[count - 1];
    if (count == 7 && strcmp(words[1], "--refused") == 0) {
        struct named named = {number_in(words[4]), number_in(words[5])};
        test_refused(number_in(words[2]), number_in(words[3]), named, words[6]);
    } else if (count == 4 && strcmp(words[1], "--cuts") == 0) {
        in_hand = words[2];
        test_cuts(words[2], words[3]);
    } else if (count == 3 && strcmp(words[1], "--no-end-code") == 0) {
        test_no_end_code(words[2]);
    } else if (count == 4 && strcmp(words[1], "--same") == 0) {
        test_same(words[2], words[3]);
    } else if (count >= 4) {
        in_hand = words[1];
        test_accepted(words[1], words[2], words[3], (size_t)count - 4, words + 4);
    } else {
        fprintf(stderr, "calls: takes FILE RECORD PICTURE [COMMENT...], --refused NUMBER SPENT BLOCK PLACE FILE, --cuts FILE BREAKS, "
                        "--no-end-code FILE or --same PLAIN FILLED\n");
        return 2;
    }
    printf("%lu\n", facts);
    return 0;
}
