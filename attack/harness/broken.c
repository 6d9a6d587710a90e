/* A scan that broke: what number, block and place must have to do with each other, with the head and with the bytes of the file. Nothing
 * here reads a code; how the scan was read is tried by cutting the file. */
#include "harness.h"

/* Where a restart is due, before every so many MCUs. */
static bool behind_restart(const struct head *head, uint64_t block) {
    return head->interval > 0 && block > 0 && block % (head->per * head->interval) == 0;
}

/* The first byte of a block whose restart, if one is due, was read: behind fill and marker. */
static size_t first_byte(const struct room *file, const struct head *head, const struct answer *scan) {
    size_t at = (size_t)scan->place;
    if (!behind_restart(head, scan->block))
        return at;
    MUST(at + 2 <= file->length && file->at[at] == 255, "a block was read, and the restart before it is not there");
    while (at + 1 < file->length && file->at[at] == 255)
        at++;
    MUST(file->at[at] == 208 + (scan->block / (head->per * head->interval) - 1) % 8, "a block was read behind another restart");
    return at + 1;
}

/* Whether a 255 from here on is followed by neither 0 nor the end. */
static bool bare_from(const struct room *file, size_t at) {
    for (; at + 1 < file->length; at++)
        if (file->at[at] == 255 && file->at[at + 1] != 0)
            return true;
    return false;
}

/* 3: all that is left is coded data; 10: there is a 255 that is none; 11: sixteen bits are there, of which at most seven were taken
 * before. */
static void reason_fits(const struct room *file, const struct head *head, const struct answer *scan) {
    if (scan->number == 4)
        return;
    MUST(scan->block < head->blocks, "a fault at the end of a scan that is not 4");
    size_t at = first_byte(file, head, scan);
    if (scan->number == 11)
        MUST(at + 2 <= file->length, "no code in sixteen bits that are not there");
    else
        MUST(bare_from(file, at) == (scan->number == 10), "ran out at a 255 that is not the last byte, or took one for such");
}

/* Block 0 begins at the first coded byte. Every block takes two bits at least, one of each table's code. */
static void place_fits(const struct room *file, const struct head *head, const struct answer *scan) {
    MUST(scan->block <= head->blocks, "a block that the picture does not have");
    MUST(scan->place >= head->start && scan->place <= file->length, "a place outside the scan");
    MUST((scan->block == 0) == (scan->place == head->start), "the first block begins elsewhere, or another where it does");
    MUST(scan->block <= 4 * (scan->place - head->start), "more blocks than the bytes before them hold");
}

struct answer cut_scan(const struct room *file, const struct head *head, size_t length) {
    struct room cut = room_take(CUT_ARENA, length, file->placing);
    room_copy(&cut, file->at);
    tillsparrow_inspected seen = tillsparrow_inspect(cut.at, length, false, UINT64_MAX, UINT64_MAX, UINT64_MAX, UINT64_MAX);
    struct answer scan = {seen.number, seen.left, seen.block, seen.place};
    MUST(scan.number == 3 || scan.number == 4, "a scan that is cut breaks by another number than 3 or 4");
    MUST(UINT64_MAX - scan.left == 2 * (uint64_t)length + 1 + head->work, "the price of a scan that is cut");
    place_fits(&cut, head, &scan);
    reason_fits(&cut, head, &scan);
    room_give_back(&cut);
    return scan;
}

/* The file that ends at the place breaks there too, in the same block. The bytes ran out in it; but where a marker was due, or where the
 * bits that were taken before the place have the fault, it is 4. */
static void breaks_when_cut(const struct room *file, const struct head *head, const struct answer *scan) {
    struct answer cut = cut_scan(file, head, (size_t)scan->place);
    MUST(cut.block == scan->block && cut.place == scan->place, "a file that ends where a block begins breaks elsewhere");
    bool marker = scan->block == head->blocks || behind_restart(head, scan->block);
    MUST(!marker || cut.number == 4, "a file that ends before a marker breaks by another number than 4");
    MUST(marker || scan->number == 4 || cut.number == 3, "a file that ends before a block breaks by another number than 3");
}

/* A slot for each number, at the first block, behind a restart, at the end and elsewhere. */
static void tell(const struct head *head, const struct answer *scan) {
    uint64_t number = scan->number < 10 ? scan->number - 3 : scan->number - 8;
    uint64_t where = scan->block == 0 ? 0 : scan->block == head->blocks ? 1 : behind_restart(head, scan->block) ? 2 : 3;
    feedback(BROKEN, 4 * number + where);
}

void check_scan(const struct room *file, const struct head *head, const struct answer *scan) {
    MUST(UINT64_MAX - scan->left == 2 * (uint64_t)file->length + 1 + head->work, "the price of the scan");
    if (scan->number == 0) {
        MUST(scan->block == 0 && scan->place == 0, "a scan that did not break, and a place where it did");
        return;
    }
    MUST(scan->number == 3 || scan->number == 4 || scan->number == 10 || scan->number == 11, "a scan breaks by none of its four numbers");
    place_fits(file, head, scan);
    reason_fits(file, head, scan);
    breaks_when_cut(file, head, scan);
    tell(head, scan);
}
