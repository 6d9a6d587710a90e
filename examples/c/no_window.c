/* In the place of window.c, where the viewer is built without SDL2. */
#include "window.h"

#include <stdio.h>

bool show_window(const char *name, const struct picture *picture, const struct note *note) {
    (void)picture;
    (void)note;
    fprintf(stderr, "view: %s: this viewer was built without a window; --pnm, --note and --facts work\n", name);
    return false;
}
