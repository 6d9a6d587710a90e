/* A viewer for seed trays.
 *
 *   view FILE          shows the picture and the camera's note in a window; q, Escape or closing ends it
 *   view --pnm FILE    writes the picture, PPM or PGM, to standard output
 *   view --note FILE   prints the text of every note as it is, and a newline behind each
 *   view --facts FILE  prints the picture's size, and each channel with its id and its sampling
 *
 * A picture of two or four channels is shown and written in grey, each channel beside the one before it.
 *
 * Exit status: 0 for done, 1 for a file that is refused, 2 for anything else. Each failure is one line on standard error.
 */
#include "tillsparrow.h"
#include "window.h"

#include <errno.h>
#include <stdio.h>
#include <stdlib.h>
#include <string.h>

enum status { DONE = 0, REFUSED = 1, FAILED = 2 };

/* The file in hand: its bytes, and the record that inspect found. */
struct file {
    const char *name;
    uint8_t *bytes;
    size_t length;
    tillsparrow_record found;
};

static enum status fail(const struct file *file, const char *what) {
    fprintf(stderr, "view: %s: %s\n", file->name, what);
    return FAILED;
}

static enum status refuse(const struct file *file, uint64_t number) {
    static const char *const meanings[] = {
        [TILLSPARROW_TOO_LONG] = "the file is too long",
        [TILLSPARROW_OVER_BUDGET] = "the price is above the budget",
        [TILLSPARROW_CUT_SHORT] = "the header is cut short",
        [TILLSPARROW_MALFORMED] = "the file is malformed",
        [TILLSPARROW_UNSUPPORTED] = "this form of JPEG is not read",
        [TILLSPARROW_TOO_LARGE] = "the picture is too large",
        [TILLSPARROW_SHORT_ROOM] = "a buffer is too short",
        [TILLSPARROW_NOT_ITS_RECORD] = "the record is not the file's",
        [TILLSPARROW_NO_END_CODE] = "a table has no end-of-block code",
    };
    const char *meaning = number < sizeof meanings / sizeof meanings[0] ? meanings[number] : "an unknown number";
    fprintf(stderr, "view: %s: refused %llu: %s\n", file->name, (unsigned long long)number, meaning);
    return REFUSED;
}

/* A number for people: 1207, and 31,337 from five digits on. The room holds the longest. */
enum { WRITTEN = 32 };

static const char *write_number(uint64_t number, char room[WRITTEN]) {
    bool grouped = number > 9999;
    char *at = room + WRITTEN;
    *--at = '\0';
    for (int count = 0; count == 0 || number > 0; count++, number /= 10) {
        if (grouped && count > 0 && count % 3 == 0)
            *--at = ',';
        *--at = (char)('0' + number % 10);
    }
    return at;
}

/* A scan that broke: why, where, and what to do about it. */
static enum status refuse_scan(const struct file *file, const tillsparrow_inspected *seen) {
    const char *why = "the scan breaks a rule of the format at block", *begins = "which begins";
    const char *to_do =
        "copy it again from the camera; a file that stays so is damaged, or what wrote it is faulty, and cannot be trusted";
    switch (seen->number) {
    case TILLSPARROW_CUT_SHORT:
        why = "the bytes ran out in block";
        to_do = "it was cut; copy it again from the camera";
        break;
    case TILLSPARROW_BARE_255: why = "a 255 is followed by neither 0 nor the end in block"; break;
    case TILLSPARROW_NO_CODE: why = "no code of the table matches in block"; break;
    /* it may be the restart before the block, or the end of the scan */
    default: begins = "whose reading began"; break;
    }
    char block[WRITTEN], place[WRITTEN], length[WRITTEN];
    fprintf(stderr, "view: %s: refused %llu: %s %s, %s at byte %s of %s: %s\n", file->name, (unsigned long long)seen->number, why,
            write_number(seen->block, block), begins, write_number(seen->place, place), write_number(file->length, length), to_do);
    return REFUSED;
}

/* ---- reading */

/* Twice the room, and more than none: the calls take no null pointer, also for a file of no bytes. */
static bool grow(struct file *file, size_t *room) {
    size_t larger = *room == 0 ? 65536 : 2 * *room;
    uint8_t *bytes = larger > *room ? realloc(file->bytes, larger) : NULL;
    if (bytes == NULL)
        return false;
    file->bytes = bytes;
    *room = larger;
    return true;
}

static enum status read_all(struct file *file, FILE *stream) {
    size_t room = 0, got = 1;
    while (got != 0) {
        if (file->length == room && !grow(file, &room))
            return fail(file, "out of memory for the file");
        got = fread(file->bytes + file->length, 1, room - file->length, stream);
        file->length += got;
    }
    return ferror(stream) ? fail(file, strerror(errno)) : DONE;
}

static enum status read_file(struct file *file) {
    FILE *stream = fopen(file->name, "rb");
    if (stream == NULL)
        return fail(file, strerror(errno));
    enum status read = read_all(file, stream);
    fclose(stream);
    return read;
}

/* What the file holds. A viewer has no limits; the price is known only behind this call. */
static enum status inspect_file(struct file *file) {
    tillsparrow_inspected seen =
        tillsparrow_inspect(file->bytes, file->length, true, SIZE_MAX, SIZE_MAX, SIZE_MAX, UINT64_MAX);
    file->found = seen.found;
    if (seen.number == TILLSPARROW_ACCEPTED)
        return DONE;
    /* a place in a scan is never 0 */
    return seen.place != 0 ? refuse_scan(file, &seen) : refuse(file, seen.number);
}

/* The price of the file that was inspected: 2 for each byte, 1, and the work. */
static uint64_t price(const struct file *file) {
    return 2 * (uint64_t)file->length + 1 + file->found.work;
}

/* ---- the picture */

static uint8_t *allocate(uint64_t length) {
    return (size_t)length == length ? malloc((size_t)length) : NULL;
}

static enum status decode_into(const struct file *file, uint8_t *output, uint8_t *scratch) {
    if (output == NULL || scratch == NULL)
        return fail(file, "out of memory for the picture");
    tillsparrow_decoded drawn = tillsparrow_decode(file->bytes, file->length, file->found, output, (size_t)file->found.output, scratch,
                                                   (size_t)file->found.scratch, price(file));
    return drawn.number == TILLSPARROW_ACCEPTED ? DONE : refuse(file, drawn.number);
}

/* The samples channel by channel: of each row first those of the first channel, then those of the next, as a row of grey pictures. */
static void lay_side_by_side(const struct picture *picture, uint8_t *laid) {
    const uint8_t *row = picture->samples;
    for (size_t y = 0; y < picture->height; y++, row += picture->width * picture->channels)
        for (size_t channel = 0; channel < picture->channels; channel++)
            for (size_t x = 0; x < picture->width; x++)
                *laid++ = row[x * picture->channels + channel];
}

/* Two and four channels are no colours that a screen has: each is shown for itself, in grey. */
static enum status show_channels(const struct file *file, struct picture *picture, uint8_t **samples) {
    uint8_t *laid = allocate(file->found.output);
    if (laid == NULL)
        return fail(file, "out of memory for the picture");
    lay_side_by_side(picture, laid);
    free(*samples);
    *samples = laid;
    *picture = (struct picture){picture->width * picture->channels, picture->height, 1, laid};
    return DONE;
}

/* The buffers have just the lengths that the record asks for. The caller frees the samples. */
static enum status decode_file(const struct file *file, struct picture *picture, uint8_t **samples) {
    *samples = allocate(file->found.output);
    uint8_t *scratch = allocate(file->found.scratch);
    enum status decoded = decode_into(file, *samples, scratch);
    free(scratch);
    *picture = (struct picture){(size_t)file->found.width, (size_t)file->found.height, (size_t)file->found.channels, *samples};
    if (decoded == DONE && (picture->channels == 2 || picture->channels == 4))
        return show_channels(file, picture, samples);
    return decoded;
}

/* ---- the notes */

static bool has_note(const struct file *file, size_t i) {
    return tillsparrow_has_comment(file->bytes, file->length, i, SIZE_MAX, SIZE_MAX, SIZE_MAX, price(file)).there == 1;
}

static struct note first_note(const struct file *file) {
    tillsparrow_part part = tillsparrow_comment(file->bytes, file->length, 0);
    struct note note = {file->bytes + part.at, (size_t)part.length, 0};
    while (has_note(file, note.count))
        note.count++;
    return note;
}

/* ---- the uses */

/* What was written may still be on its way; it has arrived where flushing succeeds. */
static enum status finish_output(const struct file *file) {
    if (ferror(stdout) || fflush(stdout) != 0)
        return fail(file, "standard output cannot be written");
    return DONE;
}

static enum status write_pnm(const struct file *file) {
    struct picture picture;
    uint8_t *samples;
    enum status decoded = decode_file(file, &picture, &samples);
    if (decoded == DONE) {
        printf("P%d\n%zu %zu\n255\n", picture.channels == 1 ? 5 : 6, picture.width, picture.height);
        fwrite(samples, 1, (size_t)file->found.output, stdout);
        decoded = finish_output(file);
    }
    free(samples);
    return decoded;
}

static enum status write_notes(const struct file *file) {
    for (size_t i = 0; has_note(file, i); i++) {
        tillsparrow_part part = tillsparrow_comment(file->bytes, file->length, i);
        fwrite(file->bytes + part.at, 1, (size_t)part.length, stdout);
        putchar('\n');
    }
    return finish_output(file);
}

/* What the channels are shown as, by their number. */
static const char *shown_as(uint64_t channels) {
    static const char *const words[] = {"", "grey", "each in grey", "in colour", "each in grey"};
    return channels < sizeof words / sizeof words[0] ? words[channels] : "";
}

/* The most that one channel has across or down: those that have less show each sample in more than one pixel. */
static unsigned long long largest(const uint64_t factors[4]) {
    uint64_t most = 0;
    for (size_t i = 0; i < 4; i++)
        most = factors[i] > most ? factors[i] : most;
    return (unsigned long long)most;
}

static enum status write_facts(const struct file *file) {
    const tillsparrow_record *found = &file->found;
    printf("%llu x %llu pixels\n", (unsigned long long)found->width, (unsigned long long)found->height);
    printf("%llu channel%s, %s\n", (unsigned long long)found->channels, found->channels == 1 ? "" : "s", shown_as(found->channels));
    for (size_t i = 0; i < found->channels && i < 4; i++)
        printf("channel %zu: id %llu, sampling %llu x %llu of %llu x %llu\n", i + 1, (unsigned long long)found->ids[i],
               (unsigned long long)found->across[i], (unsigned long long)found->down[i], largest(found->across), largest(found->down));
    return finish_output(file);
}

static enum status show(const struct file *file) {
    struct picture picture;
    uint8_t *samples;
    enum status decoded = decode_file(file, &picture, &samples);
    if (decoded == DONE) {
        struct note note = first_note(file);
        decoded = show_window(file->name, &picture, &note) ? DONE : FAILED;
    }
    free(samples);
    return decoded;
}

typedef enum status (*use)(const struct file *);

static use chosen_use(int count, char **words) {
    if (count == 2 && words[1][0] != '-')
        return show;
    if (count == 3 && strcmp(words[1], "--pnm") == 0)
        return write_pnm;
    if (count == 3 && strcmp(words[1], "--note") == 0)
        return write_notes;
    if (count == 3 && strcmp(words[1], "--facts") == 0)
        return write_facts;
    return NULL;
}

int main(int count, char **words) {
    use chosen = chosen_use(count, words);
    if (chosen == NULL) {
        fprintf(stderr, "view: takes FILE, --pnm FILE, --note FILE or --facts FILE\n");
        return FAILED;
    }
    struct file file = {words[count - 1], NULL, 0, {0}};
    enum status done = read_file(&file);
    if (done == DONE)
        done = inspect_file(&file);
    if (done == DONE)
        done = chosen(&file);
    free(file.bytes);
    return (int)done;
}
