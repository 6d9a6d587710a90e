/* The window: window.c shows it with SDL2; no_window.c stands in its place where the viewer is built without SDL2. */
#ifndef WINDOW_H
#define WINDOW_H

#include "canvas.h"

/* Shows the picture and the note until q, Escape or closing. False where that cannot be done, which is said on standard error. */
bool show_window(const char *name, const struct picture *picture, const struct note *note);

#endif
