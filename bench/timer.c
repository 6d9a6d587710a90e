/* Times every decoder on every picture named, in turn: ROUNDS rounds, in each every decoder TURNS times, and of each the best.
 *
 *     timer LIBRARY COPY ROUNDS TURNS JOBS FILE..
 *
 * JOBS is `all`, or `ours` for our three calls alone. Before anything is timed, what each decoder wrote is compared with ours. A
 * line for each picture and decoder: file, decoder, best nanoseconds of processor time, blocks, bytes of the picture, worst and mean
 * difference. A decoder that does not hand the picture's channels out has no line for it. */
#define _GNU_SOURCE
#include "decoders.h"

#include <stdio.h>
#include <stdlib.h>
#include <string.h>
#include <time.h>

enum kind { OURS, LIKE_OURS, SMOOTHED };

static const struct job {
    const char *name;
    decoder *run;
    enum kind kind;
} jobs[] = {
    {"inspect", ours_inspect, OURS},
    {"decode", ours_decode, OURS},
    {"settle", ours_settle, OURS},
    {"turbo-vectors", turbo_with_vectors, LIKE_OURS},
    {"turbo", turbo_without_vectors, LIKE_OURS},
    {"crate-vectors", rust_with_vectors, SMOOTHED},
    {"crate", rust_without_vectors, SMOOTHED},
    {"stb", stb_decode, SMOOTHED},
};

/* The mean difference of a decoder that smooths chroma; on the noisy picture that is much. */
enum { JOBS = sizeof jobs / sizeof jobs[0], OUR_JOBS = 3, MEAN_MOST = 8 };

static void off(const char *name, const char *text) {
    fprintf(stderr, "timer: %s: %s\n", name, text);
    exit(1);
}

static uint64_t now(void) {
    struct timespec t;
    clock_gettime(CLOCK_THREAD_CPUTIME_ID, &t);
    return (uint64_t)t.tv_sec * 1000000000 + (uint64_t)t.tv_nsec;
}

static uint8_t *room(size_t length) {
    uint8_t *bytes = calloc(1, length);
    if (bytes == NULL)
        off("memory", "there is not enough");
    return bytes;
}

static struct picture load(const char *path) {
    FILE *file = fopen(path, "rb");
    if (file == NULL || fseek(file, 0, SEEK_END) != 0)
        off(path, "cannot be read");
    size_t length = (size_t)ftell(file);
    uint8_t *bytes = room(length);
    rewind(file);
    if (fread(bytes, 1, length, file) != length)
        off(path, "cannot be read");
    fclose(file);
    tillsparrow_inspected seen = tillsparrow_inspect(bytes, length, true, SIZE_MAX, SIZE_MAX, SIZE_MAX, UINT64_MAX);
    if (seen.number != 0)
        off(path, "is refused");
    struct picture p = {
        path,       bytes, length, seen.found, room(seen.found.output), room(seen.found.scratch), room(4 * length), room(seen.found.output),
        4 * length, false};
    return p;
}

/* stb_image makes three channels of four. */
static bool is_timed(const struct picture *p, const struct job *job) { return p->found.channels != 4 || job->run != stb_decode; }

/* How far what the decoder wrote lies from ours; where it is not near, nothing is timed. */
static void compare(struct picture *p, const struct job *job, unsigned *worst, double *mean) {
    uint64_t sum = 0;
    memset(p->theirs, 85, p->found.output);
    p->keep = true;
    size_t wrote = job->run(p);
    p->keep = false;
    if (wrote == 0 || (job->kind != OURS && wrote != p->found.output))
        off(p->name, job->name);
    for (size_t i = 0; job->kind != OURS && i < p->found.output; i++) {
        unsigned gap = (unsigned)abs(p->theirs[i] - p->output[i]);
        *worst = gap > *worst ? gap : *worst;
        sum += gap;
    }
    *mean = (double)sum / (double)p->found.output;
    if (job->kind == LIKE_OURS && *worst > (p->found.channels == 3 ? 3 : 1))
        off(p->name, "libjpeg-turbo and ours lie further apart than 3 in colour or 1 in channels as they are coded");
    if (*mean > MEAN_MOST)
        off(p->name, "another decoder's picture is not near ours");
}

static void measure(struct picture *p, int count, int rounds, int turns) {
    uint64_t best[JOBS];
    unsigned worst[JOBS] = {0};
    double mean[JOBS] = {0};
    if (ours_decode(p) == 0)
        off(p->name, "is not decoded");
    for (int i = 0; i < count; i++) {
        best[i] = UINT64_MAX;
        if (is_timed(p, &jobs[i]))
            compare(p, &jobs[i], &worst[i], &mean[i]);
    }
    for (int round = 0; round < rounds; round++)
        for (int turn = 0; turn < count * turns; turn++) {
            int i = turn / turns;
            if (!is_timed(p, &jobs[i]))
                continue;
            uint64_t start = now();
            jobs[i].run(p);
            uint64_t took = now() - start;
            best[i] = took < best[i] ? took : best[i];
        }
    for (int i = 0; i < count; i++)
        if (is_timed(p, &jobs[i]))
            printf("%s %s %llu %llu %llu %u %.4f\n", p->name, jobs[i].name, (unsigned long long)best[i],
                   (unsigned long long)p->found.blocks, (unsigned long long)p->found.output, worst[i], mean[i]);
}

int main(int count, char **words) {
    if (count < 7)
        off("usage", "timer LIBRARY COPY ROUNDS TURNS all|ours FILE..");
    if (!turbo_load(words[1], words[2]))
        off(words[1], "libjpeg-turbo cannot be loaded");
    for (int i = 6; i < count; i++) {
        struct picture p = load(words[i]);
        measure(&p, strcmp(words[5], "all") == 0 ? JOBS : OUR_JOBS, atoi(words[3]), atoi(words[4]));
        free(p.output), free(p.scratch), free(p.settled), free(p.theirs), free((void *)p.bytes);
    }
    return 0;
}
