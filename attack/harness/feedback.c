/* Counters that libFuzzer takes as coverage, since the archive has none: which answers were seen on which kind of file. */
#include "harness.h"

#include <stdio.h>
#include <stdlib.h>

enum { SLOTS = 64 };

__attribute__((section("__libfuzzer_extra_counters"))) static uint8_t counters[KINDS * SLOTS];

void feedback(enum kind kind, uint64_t value) {
    uint8_t *counter = &counters[kind * SLOTS + (value < SLOTS ? value : SLOTS - 1)];
    if (*counter < 255)
        ++*counter;
}

uint64_t size_class(uint64_t value) {
    uint64_t bits = 0;
    while (value >> bits > 0 && bits < 63)
        bits++;
    return bits;
}

_Noreturn void violated(const char *what, const char *file, int line) {
    fprintf(stderr, "violation: %s (%s:%d)\n", what, file, line);
    abort();
}
