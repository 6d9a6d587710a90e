/* The calls of the archive with one fault put in, chosen by FAULT: to see that the harness finds it. The archive's own functions are
 * renamed to real_ before this is linked. */
#include "tillsparrow.h"

#define REAL(name) real_tillsparrow_##name

tillsparrow_inspected REAL(inspect)(const uint8_t *, size_t, bool, size_t, size_t, size_t, uint64_t);
tillsparrow_decoded REAL(decode)(const uint8_t *, size_t, tillsparrow_record, uint8_t *, size_t, uint8_t *, size_t, uint64_t);
tillsparrow_settled REAL(settle)(const uint8_t *, size_t, size_t, size_t, size_t, uint64_t, uint8_t *, size_t);
tillsparrow_part REAL(comment)(const uint8_t *, size_t, size_t);
tillsparrow_presence REAL(has_comment)(const uint8_t *, size_t, size_t, size_t, size_t, size_t, uint64_t);

static volatile uint8_t sink;

/* What every call that names the block and the place says wrongly in the same way. */
static void misname(uint64_t *number, uint64_t *block, uint64_t *place) {
    if (FAULT == 24 && *number == 10)
        *number = 11;
    *place += FAULT == 25 && *block > 0;
    *block -= FAULT == 26 && *number == 4 && *block > 0;
}

static bool ten_blocks(const tillsparrow_record *found) {
    uint64_t blocks = 0;
    for (int i = 0; i < 4; i++)
        blocks += found->across[i] * found->down[i];
    return blocks == 10;
}

tillsparrow_inspected tillsparrow_inspect(const uint8_t *bytes, size_t length, bool colour, size_t input, size_t side, size_t output,
                                          uint64_t budget) {
    if (FAULT == 1 && length > 300)
        sink = bytes[length]; /* reads one past the end */
    if (FAULT == 2 && length > 300)
        sink = bytes[-1]; /* reads one before the start */
    tillsparrow_inspected seen = REAL(inspect)(bytes, length, colour, input, side, output, budget);
    seen.left -= FAULT == 3 && seen.number == 6;
    seen.found.width += FAULT == 4 && seen.number == 4;
    seen.found.down[3] += FAULT == 27 && seen.number == 0 && seen.found.channels == 4;
    if (FAULT == 28 && seen.number == 0 && ten_blocks(&seen.found)) {
        seen.left += seen.found.work; /* as many blocks as an MCU may have, refused */
        seen.number = 5;
        seen.found = (tillsparrow_record){0};
    }
    seen.found.quants[2] += FAULT == 5 && seen.number == 0 && seen.found.interval > 0;
    if (FAULT == 6 && seen.number == 2 && budget == 2 * (uint64_t)length + seen.left)
        seen.number = 1;
    misname(&seen.number, &seen.block, &seen.place);
    seen.place += FAULT == 17 && seen.number == 10;
    seen.block -= FAULT == 18 && seen.number == 4 && seen.block > 0;
    if (FAULT == 19 && seen.number == 3 && seen.place == 0)
        seen.place = length; /* a header that is cut short names a place */
    if (FAULT == 20 && seen.number == 3 && seen.place > 0)
        seen.number = 4; /* as it was before the reasons had numbers */
    return seen;
}

tillsparrow_decoded tillsparrow_decode(const uint8_t *bytes, size_t length, tillsparrow_record found, uint8_t *output, size_t output_length,
                                       uint8_t *scratch, size_t scratch_length, uint64_t budget) {
    tillsparrow_decoded drawn = REAL(decode)(bytes, length, found, output, output_length, scratch, scratch_length, budget);
    if (FAULT == 7 && drawn.number == 8 && output_length > 0)
        output[output_length - 1] ^= 1; /* a refusal that writes */
    if (FAULT == 8 && drawn.number == 0 && scratch_length > found.scratch)
        scratch[found.scratch] ^= 1; /* the tail */
    if (FAULT == 9 && drawn.number == 0 && found.channels == 3 && found.across[0] == 4)
        output[found.output - 1] ^= 1; /* a sample, the same wrong one each time */
    if (FAULT == 10 && drawn.number == 0)
        output[output_length] = 7; /* writes one past the end */
    if (FAULT == 11 && drawn.number == 8 && found.dcs[3] == 1)
        drawn.number = 0; /* a changed record is let through */
    if (FAULT == 29 && drawn.number == 0 && found.channels == 2 && found.across[0] != found.across[1])
        output[1] ^= 1; /* a sample of the second channel */
    if (FAULT == 30 && drawn.number == 8 && found.channels < 4 && found.across[3] == 1)
        drawn.number = 0; /* a factor behind the last channel is not looked at */
    return drawn;
}

tillsparrow_settled tillsparrow_settle(const uint8_t *bytes, size_t length, size_t input, size_t side, size_t most, uint64_t budget,
                                       uint8_t *output, size_t output_length) {
    tillsparrow_settled written = REAL(settle)(bytes, length, input, side, most, budget, output, output_length);
    written.length += FAULT == 12 && written.number == 7;
    if (FAULT == 13 && written.number == 0 && written.length > 700)
        output[written.length - 5] ^= 16; /* a bit of the settled scan */
    written.left += FAULT == 14 && written.number == 9 && written.left > 0;
    misname(&written.number, &written.block, &written.place);
    if (FAULT == 21 && written.number == 7)
        written.place = length;
    if (FAULT == 22 && written.number == 11)
        written.block = 0;
    return written;
}

tillsparrow_part tillsparrow_comment(const uint8_t *bytes, size_t length, size_t i) {
    tillsparrow_part part = REAL(comment)(bytes, length, i);
    part.at -= FAULT == 15 && part.length > 0;
    return part;
}

tillsparrow_presence tillsparrow_has_comment(const uint8_t *bytes, size_t length, size_t i, size_t input, size_t side, size_t output,
                                             uint64_t budget) {
    tillsparrow_presence seen = REAL(has_comment)(bytes, length, i, input, side, output, budget);
    tillsparrow_part part = REAL(comment)(bytes, length, i);
    if (FAULT == 16 && part.length == 0)
        seen.there = 0; /* an empty comment is taken for none */
    misname(&seen.number, &seen.block, &seen.place);
    seen.place -= FAULT == 23 && seen.number == 3 && seen.block > 0;
    return seen;
}
