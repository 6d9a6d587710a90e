/* What the window shows, as an array of pixels: the picture, scaled down where the screen is smaller, and the note as text below it. */
#ifndef CANVAS_H
#define CANVAS_H

#include <stdbool.h>
#include <stddef.h>
#include <stdint.h>

struct picture {
    size_t width, height;
    size_t channels; /* 1: grey, also where several channels lie side by side; 3: red, green, blue */
    const uint8_t *samples;
};

/* The text of the first of `count` notes. */
struct note {
    const uint8_t *text;
    size_t length;
    size_t count;
};

/* Red, green and blue of each pixel, row by row. */
struct canvas {
    size_t width, height;
    uint8_t *pixels;
};

/* False where there is no memory for it. The caller frees the pixels. */
bool draw_canvas(const struct picture *picture, const struct note *note, size_t screen_width, size_t screen_height, struct canvas *made);

/* The note as one line of printable ASCII, cut where the room ends. */
void note_as_line(const struct note *note, char *line, size_t room);

#endif
