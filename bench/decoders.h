/* The decoders that are timed, each behind the same call: a picture in, the bytes it wrote out, 0 where it failed. */
#ifndef DECODERS_H
#define DECODERS_H

#include "tillsparrow.h"

struct picture {
    const char *name;
    const uint8_t *bytes;
    size_t length;
    tillsparrow_record found; /* at hand before anything is timed */
    uint8_t *output, *scratch, *settled, *theirs;
    size_t settled_room;
    bool keep; /* copy the picture to `theirs`, also where the decoder has a buffer of its own */
};

typedef size_t decoder(const struct picture *picture);

decoder ours_inspect, ours_decode, ours_settle;
decoder turbo_with_vectors, turbo_without_vectors;
decoder rust_with_vectors, rust_without_vectors;
decoder stb_decode;

/* Loads the two copies of libjpeg-turbo; false where that fails. */
bool turbo_load(const char *with_vectors, const char *without_vectors);

#endif
