/* libjpeg-turbo twice in one process: the distribution's library, and a copy of its file that is first used with JSIMD_FORCENONE=1
 * in the environment. Each is loaded for itself and asks for the environment once, at its first decoding. Settings as near to ours
 * as they go: the accurate integer transform, and no smoothing of chroma. */
#define _GNU_SOURCE
#include "decoders.h"

#include <dlfcn.h>
#include <setjmp.h>
#include <stdio.h>
#include <stdlib.h>

#include <jpeglib.h>

struct library {
    struct jpeg_error_mgr *(*std_error)(struct jpeg_error_mgr *);
    void (*create)(j_decompress_ptr, int, size_t);
    void (*source)(j_decompress_ptr, const unsigned char *, unsigned long);
    int (*read_header)(j_decompress_ptr, boolean);
    boolean (*start)(j_decompress_ptr);
    JDIMENSION (*read)(j_decompress_ptr, JSAMPARRAY, JDIMENSION);
    boolean (*finish)(j_decompress_ptr);
    void (*destroy)(j_decompress_ptr);
};

static struct library with_vectors, without_vectors;

static bool take(void *from, const char *name, void *into) {
    *(void **)into = dlsym(from, name);
    return *(void **)into != NULL;
}

static bool load(const char *path, struct library *l) {
    void *from = dlopen(path, RTLD_NOW | RTLD_LOCAL);
    if (from == NULL)
        return false;
    return take(from, "jpeg_std_error", &l->std_error) && take(from, "jpeg_CreateDecompress", &l->create) &&
           take(from, "jpeg_mem_src", &l->source) && take(from, "jpeg_read_header", &l->read_header) &&
           take(from, "jpeg_start_decompress", &l->start) && take(from, "jpeg_read_scanlines", &l->read) &&
           take(from, "jpeg_finish_decompress", &l->finish) && take(from, "jpeg_destroy_decompress", &l->destroy);
}

bool turbo_load(const char *with, const char *without) { return load(with, &with_vectors) && load(without, &without_vectors); }

struct stop {
    struct jpeg_error_mgr manager;
    jmp_buf back;
};

static void fault(j_common_ptr info) { longjmp(((struct stop *)info->err)->back, 1); }

static size_t decode(const struct library *l, const struct picture *p) {
    struct jpeg_decompress_struct info;
    struct stop stop;
    info.err = l->std_error(&stop.manager);
    stop.manager.error_exit = fault;
    if (setjmp(stop.back) != 0) {
        l->destroy(&info);
        return 0;
    }
    l->create(&info, JPEG_LIB_VERSION, sizeof info);
    l->source(&info, p->bytes, p->length);
    l->read_header(&info, TRUE);
    info.dct_method = JDCT_ISLOW;
    info.do_fancy_upsampling = FALSE;
    l->start(&info);
    size_t row = (size_t)info.output_width * (size_t)info.output_components, length = row * info.output_height;
    while (length == p->found.output && info.output_scanline < info.output_height) {
        JSAMPROW rows[1] = {p->theirs + row * info.output_scanline};
        l->read(&info, rows, 1);
    }
    if (length == p->found.output)
        l->finish(&info);
    l->destroy(&info);
    return length == p->found.output ? length : 0;
}

size_t turbo_with_vectors(const struct picture *p) {
    static bool used;
    if (!used)
        unsetenv("JSIMD_FORCENONE");
    used = true;
    return decode(&with_vectors, p);
}

size_t turbo_without_vectors(const struct picture *p) {
    static bool used;
    if (!used)
        setenv("JSIMD_FORCENONE", "1", 1);
    used = true;
    return decode(&without_vectors, p);
}
