/* Shows the canvas in a window, with SDL2. The canvas is drawn once; the window takes a copy whenever it has to be shown again. */
#include "window.h"

#include <SDL.h>
#include <stdio.h>
#include <stdlib.h>

/* what a desktop puts around a window and SDL does not know of yet */
enum frame { FRAME_ACROSS = 16, FRAME_DOWN = 48 };

static bool fail(const char *name, const char *what) {
    fprintf(stderr, "view: %s: %s: %s\n", name, what, SDL_GetError());
    return false;
}

/* The note; the name of a file that has none. */
static void make_title(const char *name, const struct note *note, char *title, size_t room) {
    note_as_line(note, title, room);
    if (title[0] == '\0')
        snprintf(title, room, "%s", name);
}

static bool repaint(SDL_Window *window, SDL_Surface *shown) {
    SDL_Surface *surface = SDL_GetWindowSurface(window);
    return surface != NULL && SDL_BlitSurface(shown, NULL, surface, NULL) == 0 && SDL_UpdateWindowSurface(window) == 0;
}

static bool is_end(const SDL_Event *event) {
    if (event->type == SDL_KEYDOWN)
        return event->key.keysym.sym == SDLK_q || event->key.keysym.sym == SDLK_ESCAPE;
    return event->type == SDL_QUIT;
}

/* SDL_WaitEvent would send the window a message to wake itself, by another connection to the X server. It may arrive when the window
 * is gone, and the program then ends with an error of X. So SDL is asked fifty times a second instead. */
static SDL_Event next_event(void) {
    SDL_Event event;
    while (!SDL_PollEvent(&event))
        SDL_Delay(20);
    return event;
}

static bool run_window(const char *name, SDL_Window *window, SDL_Surface *shown) {
    SDL_Event event = {.type = SDL_WINDOWEVENT};
    while (!is_end(&event)) {
        if (event.type == SDL_WINDOWEVENT && !repaint(window, shown))
            return fail(name, "the window cannot be painted");
        event = next_event();
    }
    return true;
}

static bool show_canvas(const char *name, const char *title, const struct canvas *canvas) {
    int width = (int)canvas->width, height = (int)canvas->height;
    SDL_Surface *shown = SDL_CreateRGBSurfaceWithFormatFrom(canvas->pixels, width, height, 24, 3 * width, SDL_PIXELFORMAT_RGB24);
    if (shown == NULL)
        return fail(name, "out of memory");
    SDL_Window *window = SDL_CreateWindow(title, SDL_WINDOWPOS_CENTERED, SDL_WINDOWPOS_CENTERED, width, height, 0);
    bool well = window != NULL ? run_window(name, window, shown) : fail(name, "no window can be opened");
    if (window != NULL)
        SDL_DestroyWindow(window);
    SDL_FreeSurface(shown);
    return well;
}

static bool draw_and_show(const char *name, const struct picture *picture, const struct note *note) {
    SDL_Rect screen;
    struct canvas canvas;
    char title[256];
    if (SDL_GetDisplayUsableBounds(0, &screen) != 0)
        return fail(name, "the screen has no size");
    size_t width = screen.w > 2 * FRAME_ACROSS ? (size_t)(screen.w - FRAME_ACROSS) : FRAME_ACROSS;
    size_t height = screen.h > 2 * FRAME_DOWN ? (size_t)(screen.h - FRAME_DOWN) : FRAME_DOWN;
    if (!draw_canvas(picture, note, width, height, &canvas)) {
        fprintf(stderr, "view: %s: out of memory for the window\n", name);
        return false;
    }
    make_title(name, note, title, sizeof title);
    bool well = show_canvas(name, title, &canvas);
    free(canvas.pixels);
    return well;
}

/* The kinds of display that somebody sees: left to itself, SDL would open a window off every screen where there is none. Without its
 * folder no Wayland display is reached, and Wayland's library would say so in a line of its own. SDL_VIDEODRIVER goes before this. */
static const char *displays(void) {
    return getenv("XDG_RUNTIME_DIR") != NULL ? "x11,wayland,KMSDRM" : "x11,KMSDRM";
}

bool show_window(const char *name, const struct picture *picture, const struct note *note) {
    SDL_SetHint(SDL_HINT_VIDEODRIVER, displays());
    /* pixels go to the screen as they are, by no graphics card that may round them */
    SDL_SetHint(SDL_HINT_FRAMEBUFFER_ACCELERATION, "0");
    if (SDL_Init(SDL_INIT_VIDEO) != 0)
        return fail(name, "there is no display for a window");
    SDL_EnableScreenSaver();
    bool well = draw_and_show(name, picture, note);
    SDL_Quit();
    return well;
}
