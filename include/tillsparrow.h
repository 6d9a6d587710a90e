/* Tillsparrow: reads baseline JPEG files. The calls of the proved library for C.
 *
 * A call reads what it is lent and writes into the buffers it is lent, and nothing else: it allocates nothing, keeps nothing and
 * calls nothing but memcpy and memset. Every number may come in: bytes, limits, budgets and records are tested, and what does not
 * fit is refused by number. On a refusal every buffer is as it was.
 *
 * What the caller keeps: each pointer is not null, also where its length is 0, and points to that many bytes; a buffer that is
 * written overlaps no other argument.
 */
#ifndef TILLSPARROW_H
#define TILLSPARROW_H

#include <stdbool.h>
#include <stddef.h>
#include <stdint.h>

#ifdef __cplusplus
extern "C" {
#endif

/* The numbers of an answer. 4 is also that of a Huffman table, used or not, that lists a symbol twice or a symbol that no block takes. */
enum tillsparrow_number {
    TILLSPARROW_ACCEPTED = 0,
    TILLSPARROW_TOO_LONG = 1,       /* more bytes than the limit on input */
    TILLSPARROW_OVER_BUDGET = 2,    /* the price is above the budget */
    TILLSPARROW_CUT_SHORT = 3,      /* the header is cut short, or the bytes ran out in a block of the scan */
    TILLSPARROW_MALFORMED = 4,      /* a rule of the format is broken, in header, tables or scan */
    TILLSPARROW_UNSUPPORTED = 5,    /* a form of JPEG that is not read */
    TILLSPARROW_TOO_LARGE = 6,      /* a side, or the samples, above a limit */
    TILLSPARROW_SHORT_ROOM = 7,     /* a lent buffer is too short */
    TILLSPARROW_NOT_ITS_RECORD = 8, /* the record is not the file's */
    TILLSPARROW_NO_END_CODE = 9,    /* settle: a block wants an end-of-block code, and its table has none */
    TILLSPARROW_BARE_255 = 10,      /* in a block of the scan, a 255 that is followed by neither 0 nor the end */
    TILLSPARROW_NO_CODE = 11        /* in a block of the scan, sixteen bits that are no code of its table */
};

/* What inspect finds: 46 numbers of 64 bits, in this order. */
typedef struct tillsparrow_record {
    uint64_t width;
    uint64_t height;
    uint64_t channels;   /* 1 to 4 */
    uint64_t across[4];  /* for each channel its blocks across in an MCU; 0 behind the last channel, here and in the next five */
    uint64_t down[4];    /* its blocks down in an MCU; a single channel has 1 across and 1 down */
    uint64_t ids[4];     /* its id */
    uint64_t qids[4];    /* the id of its quantizer */
    uint64_t dcids[4];   /* the id of its DC table */
    uint64_t acids[4];   /* the id of its AC table */
    uint64_t quants[4];  /* by id, the place of each quantizer in the file; 0 where there is none, here and in the next two */
    uint64_t dcs[4];     /* of each DC table */
    uint64_t acs[4];     /* of each AC table */
    uint64_t interval;   /* MCUs between restarts, or 0 */
    uint64_t start;      /* the place of the first coded byte */
    uint64_t blocks;     /* the blocks of the picture */
    uint64_t scratch;    /* the bytes that decode needs for the samples of all blocks */
    uint64_t output;     /* the bytes of the picture */
    uint64_t work;       /* the price of the scan */
    uint64_t colour;     /* 0 or 1; with 1 a picture of three channels is red, green, blue; every other has its channels as they are coded */
} tillsparrow_record;

/* number is 0 where accepted, else that of the refusal; left is what is left of the budget. Where a scan broke, which is 3, 4, 10 or 11,
 * block is the number of the block it broke in, counted from 0, or the block count where the final marker is wrong; and place is that of
 * the first byte not yet taken when the reading of that block began, before any restart. Both are 0 for every other answer. A place in
 * the scan is never 0, so a place of 0 says that no scan broke. */
typedef struct tillsparrow_inspected {
    uint64_t number;
    uint64_t left;
    uint64_t block;
    uint64_t place;
    tillsparrow_record found; /* zero in every field where refused */
} tillsparrow_inspected;

typedef struct tillsparrow_decoded {
    uint64_t number;
    uint64_t left;
} tillsparrow_decoded;

typedef struct tillsparrow_settled {
    uint64_t number;
    uint64_t left;
    uint64_t block;
    uint64_t place;
    uint64_t length; /* the bytes of the settled file; the bytes it needs where refused with 7; else 0 */
} tillsparrow_settled;

typedef struct tillsparrow_part {
    uint64_t at;
    uint64_t length;
} tillsparrow_part;

typedef struct tillsparrow_presence {
    uint64_t number;
    uint64_t left;
    uint64_t block;
    uint64_t place;
    uint64_t there; /* 1 where the comment is there, else 0 */
} tillsparrow_presence;

/* What a file holds. It takes 2 for each byte of the file and 1 from the budget, and the record's work where it comes to the scan. */
tillsparrow_inspected tillsparrow_inspect(
    const uint8_t *bytes, size_t length, bool colour,
    size_t input_limit, size_t side_limit, size_t output_limit, uint64_t budget);

/* The picture of a file whose record is given, row by row, channels interleaved; scratch gets the samples of the blocks. Any record
 * may come in; one that is not the file's is refused. Limits are set aside. */
tillsparrow_decoded tillsparrow_decode(
    const uint8_t *bytes, size_t length, tillsparrow_record found,
    uint8_t *output, size_t output_length, uint8_t *scratch, size_t scratch_length, uint64_t budget);

/* The settled file: the same head and the same coefficients, coded in the one settled way, without the fill bytes that may stand before
 * a scan's markers. At inspect's price. */
tillsparrow_settled tillsparrow_settle(
    const uint8_t *bytes, size_t length,
    size_t input_limit, size_t side_limit, size_t output_limit, uint64_t budget,
    uint8_t *output, size_t output_length);

/* The place and the length, in the caller's own bytes, of the text of comment i, counted from 0 over the comment segments before the
 * scan. Both are 0 where there is none, or where the file is not accepted, limits aside. */
tillsparrow_part tillsparrow_comment(const uint8_t *bytes, size_t length, size_t i);

/* Whether comment i is there, which an empty text does not tell. At inspect's price and with its numbers. */
tillsparrow_presence tillsparrow_has_comment(
    const uint8_t *bytes, size_t length, size_t i,
    size_t input_limit, size_t side_limit, size_t output_limit, uint64_t budget);

#ifdef __cplusplus
}
#endif

#endif
