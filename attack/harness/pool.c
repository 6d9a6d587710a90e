/* Accepted files, kept while a run goes on, for the mutator to begin with: libFuzzer's own corpus holds mostly refused ones. */
#include "harness.h"

#include <string.h>

enum { KEPT = 512, LONGEST = 1024 };

static struct {
    uint8_t file[LONGEST];
    size_t length;
} pool[KEPT];
static size_t count, turn;

void pool_add(const uint8_t *file, size_t length) {
    if (length > LONGEST)
        return;
    size_t at = count < KEPT ? count++ : (turn = (turn * 5 + 7) % KEPT);
    memcpy(pool[at].file, file, length);
    pool[at].length = length;
}

size_t pool_take(uint64_t any, uint8_t *file, size_t most) {
    if (count == 0 || pool[any % count].length > most)
        return 0;
    memcpy(file, pool[any % count].file, pool[any % count].length);
    return pool[any % count].length;
}
