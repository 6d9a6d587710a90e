/* Draws the canvas: sizes first, then the picture, then the note. */
#include "canvas.h"
#include "letters.h"

#include <stdio.h>
#include <stdlib.h>
#include <string.h>

enum measures {
    LEAST_WIDTH = 480, /* so that a note can be read below a small picture */
    MARGIN = 10,       /* around the note */
    LETTER_SCALE = 2,
    STEP = LETTER_STEP * LETTER_SCALE,
    ROW = 10 * LETTER_SCALE,
    MOST_ROWS = 6 /* of the note's own text; a row that tells of the rest may follow */
};

static const uint8_t ground[3] = {32, 34, 36}, ink[3] = {236, 234, 228}, pale[3] = {150, 152, 154};

struct layout {
    size_t width, height;             /* of the canvas */
    size_t shown_width, shown_height; /* of the picture on it */
};

/* ---- text */

static bool is_break(uint8_t byte) {
    return byte == '\n' || byte == '\r';
}

static char printable(uint8_t byte) {
    if (is_break(byte) || byte == '\t')
        return ' ';
    return byte >= ' ' && byte <= '~' ? (char)byte : '?';
}

void note_as_line(const struct note *note, char *line, size_t room) {
    size_t i = 0;
    for (; i < note->length && i + 1 < room; i++)
        line[i] = printable(note->text[i]);
    line[i] = '\0';
}

/* One row of the note: the bytes that it shows, and the bytes behind which the next row begins. */
struct row {
    size_t shown, taken;
};

/* A row ends at a line break, else at the last space that fits, else where it is full. */
static struct row next_row(const uint8_t *text, size_t length, size_t letters_across) {
    size_t end = 0, space = 0;
    while (end < length && end < letters_across && !is_break(text[end])) {
        if (text[end] == ' ')
            space = end;
        end++;
    }
    struct row row = {end, end};
    if (end == length)
        return row;
    if (is_break(text[end])) {
        bool pair = text[end] == '\r' && end + 1 < length && text[end + 1] == '\n';
        row.taken = end + (pair ? 2 : 1);
    } else if (text[end] == ' ') {
        row.taken = end + 1;
    } else if (space != 0) {
        row.shown = space;
        row.taken = space + 1;
    }
    return row;
}

static size_t letters_across(size_t width) {
    return width > 2 * MARGIN + STEP ? (width - 2 * MARGIN) / STEP : 1;
}

/* The rows of the text, MOST_ROWS at most; how many bytes they take goes to *taken. */
static size_t text_rows(const struct note *note, size_t across, size_t *taken) {
    size_t rows = 0;
    *taken = 0;
    while (*taken < note->length && rows < MOST_ROWS) {
        *taken += next_row(note->text + *taken, note->length - *taken, across).taken;
        rows++;
    }
    return rows;
}

/* What the last row says of the rest, or nothing. */
static void tell_rest(const struct note *note, bool cut, char *line, size_t room) {
    line[0] = '\0';
    if (note->count == 0)
        snprintf(line, room, "(no note)");
    else if (note->count > 1)
        snprintf(line, room, "%sand %zu more note%s", cut ? "cut here, " : "", note->count - 1, note->count == 2 ? "" : "s");
    else if (cut)
        snprintf(line, room, "cut here");
    else if (note->length == 0)
        snprintf(line, room, "(an empty note)");
}

static size_t all_rows(const struct note *note, size_t width) {
    char rest[64];
    size_t taken, rows = text_rows(note, letters_across(width), &taken);
    tell_rest(note, taken < note->length, rest, sizeof rest);
    return rows + (rest[0] == '\0' ? 0 : 1);
}

/* ---- sizes */

static size_t at_least(size_t size, size_t least) {
    return size < least ? least : size;
}

/* The largest size of the picture's shape, no larger than the picture, that fits; each side is at least 1. */
static void fit(const struct picture *picture, size_t width, size_t height, struct layout *l) {
    double across = (double)width / (double)picture->width, down = (double)height / (double)picture->height;
    double scale = across < down ? across : down;
    if (scale >= 1) {
        l->shown_width = picture->width;
        l->shown_height = picture->height;
        return;
    }
    l->shown_width = at_least((size_t)((double)picture->width * scale + 0.5), 1);
    l->shown_height = at_least((size_t)((double)picture->height * scale + 0.5), 1);
}

/* A narrower picture has more rows of text below it, which leave less height for the picture: so again, until the rows suffice. */
static struct layout lay_out(const struct picture *picture, const struct note *note, size_t screen_width, size_t screen_height) {
    struct layout l;
    size_t rows = 0, needed = 1;
    while (rows < needed) {
        rows = needed;
        size_t strip = 2 * MARGIN + rows * ROW;
        fit(picture, screen_width, screen_height > strip ? screen_height - strip : 1, &l);
        l.width = at_least(l.shown_width, LEAST_WIDTH);
        l.height = l.shown_height + strip;
        needed = all_rows(note, l.width);
    }
    return l;
}

/* ---- drawing */

static uint8_t *pixel_at(const struct canvas *c, size_t x, size_t y) {
    return c->pixels + 3 * (y * c->width + x);
}

static void fill(const struct canvas *c, size_t x, size_t y, size_t width, size_t height, const uint8_t colour[3]) {
    for (size_t j = y; j < y + height && j < c->height; j++)
        for (size_t i = x; i < x + width && i < c->width; i++)
            memcpy(pixel_at(c, i, j), colour, 3);
}

/* The mean of the samples of one channel over the part of the picture that falls on one pixel. */
static uint8_t mean(const struct picture *p, size_t left, size_t top, size_t right, size_t bottom, size_t channel) {
    uint64_t sum = 0, count = (uint64_t)(right - left) * (bottom - top);
    for (size_t y = top; y < bottom; y++)
        for (size_t x = left; x < right; x++)
            sum += p->samples[(y * p->width + x) * p->channels + channel];
    return (uint8_t)((sum + count / 2) / count);
}

static void draw_picture(const struct canvas *c, const struct picture *p, const struct layout *l) {
    size_t margin = (c->width - l->shown_width) / 2;
    for (size_t y = 0; y < l->shown_height; y++) {
        size_t top = y * p->height / l->shown_height, bottom = (y + 1) * p->height / l->shown_height;
        for (size_t x = 0; x < l->shown_width; x++) {
            size_t left = x * p->width / l->shown_width, right = (x + 1) * p->width / l->shown_width;
            uint8_t *pixel = pixel_at(c, margin + x, y);
            for (size_t channel = 0; channel < 3; channel++)
                pixel[channel] = mean(p, left, top, right, bottom, p->channels == 1 ? 0 : channel);
        }
    }
}

static void draw_letter(const struct canvas *c, size_t x, size_t y, char letter, const uint8_t colour[3]) {
    const uint8_t *rows = letters[letter - ' '];
    for (size_t row = 0; row < LETTER_ROWS; row++)
        for (size_t column = 0; column < LETTER_COLUMNS; column++)
            if (rows[row] >> (LETTER_COLUMNS - 1 - column) & 1)
                fill(c, x + column * LETTER_SCALE, y + row * LETTER_SCALE, LETTER_SCALE, LETTER_SCALE, colour);
}

static void draw_row(const struct canvas *c, size_t y, const uint8_t *text, size_t length, const uint8_t colour[3]) {
    for (size_t i = 0; i < length; i++)
        draw_letter(c, MARGIN + i * STEP, y, printable(text[i]), colour);
}

static void draw_note(const struct canvas *c, const struct note *note, size_t y) {
    size_t across = letters_across(c->width), at = 0;
    for (size_t row = 0; row < MOST_ROWS && at < note->length; row++) {
        struct row next = next_row(note->text + at, note->length - at, across);
        draw_row(c, y, note->text + at, next.shown, ink);
        at += next.taken;
        y += ROW;
    }
    char rest[64];
    tell_rest(note, at < note->length, rest, sizeof rest);
    draw_row(c, y, (const uint8_t *)rest, strlen(rest), pale);
}

bool draw_canvas(const struct picture *picture, const struct note *note, size_t screen_width, size_t screen_height, struct canvas *made) {
    struct layout l = lay_out(picture, note, screen_width, screen_height);
    made->width = l.width;
    made->height = l.height;
    made->pixels = malloc(3 * l.width * l.height);
    if (made->pixels == NULL)
        return false;
    fill(made, 0, 0, l.width, l.height, ground);
    draw_picture(made, picture, &l);
    draw_note(made, note, l.shown_height + MARGIN);
    return true;
}
