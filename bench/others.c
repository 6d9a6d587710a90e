/* stb_image (on x86-64 its SSE2 code is on; its smoothing of chroma cannot be turned off) and the crate jpeg-decoder. */
#include "decoders.h"

#include <string.h>

#define STB_IMAGE_IMPLEMENTATION
#define STB_IMAGE_STATIC
#define STBI_ONLY_JPEG
#define STBI_NO_STDIO
#include <stb/stb_image.h>

size_t crate_with_vectors(const uint8_t *bytes, size_t length, uint8_t *output, size_t room);
size_t crate_without_vectors(const uint8_t *bytes, size_t length, uint8_t *output, size_t room);

/* Both have a buffer of their own, which is copied only for the comparison. The crate turns four channels over, as printers do: for
 * the comparison they are turned back. */
static size_t compared(const struct picture *p, size_t length) {
    for (size_t i = 0; p->keep && p->found.channels == 4 && i < p->found.output; i++)
        p->theirs[i] = (uint8_t)(255 - p->theirs[i]);
    return length;
}

size_t rust_with_vectors(const struct picture *p) {
    return compared(p, crate_with_vectors(p->bytes, p->length, p->theirs, p->keep ? p->found.output : 0));
}

size_t rust_without_vectors(const struct picture *p) {
    return compared(p, crate_without_vectors(p->bytes, p->length, p->theirs, p->keep ? p->found.output : 0));
}

size_t stb_decode(const struct picture *p) {
    int width, height, channels;
    uint8_t *pixels = stbi_load_from_memory(p->bytes, (int)p->length, &width, &height, &channels, 0);
    if (pixels == NULL)
        return 0;
    size_t length = (size_t)width * (size_t)height * (size_t)channels;
    if (p->keep && length == p->found.output)
        memcpy(p->theirs, pixels, length);
    stbi_image_free(pixels);
    return length == p->found.output ? length : 0;
}
