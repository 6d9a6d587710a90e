/* One execution: the input's file through all five calls, each answer held against the model and, for some or all inputs, against
 * the reference reader. A violation aborts. */
#include "harness.h"

#include <stdio.h>
#include <stdlib.h>
#include <string.h>

/* How many files came how far, how many channels those have that were accepted, and whose scans broke by which number; printed at the
 * end, for the word on how deep the run went. */
static uint64_t executions, heads, accepted, compared, of_channels[CHANNELS + 1], broken[12];

#define COUNT(n) ((unsigned long long)(n))

static void report(void) {
    fprintf(stderr,
            "harness: %llu executions, head read in %llu, accepted %llu, of them with one channel %llu, with two %llu, with three %llu, "
            "with four %llu, scan broken by 3 in %llu, by 4 in %llu, by 10 in %llu, by 11 in %llu, compared with the reference %llu\n",
            COUNT(executions), COUNT(heads), COUNT(accepted), COUNT(of_channels[1]), COUNT(of_channels[2]), COUNT(of_channels[3]),
            COUNT(of_channels[4]), COUNT(broken[3]), COUNT(broken[4]), COUNT(broken[10]), COUNT(broken[11]), COUNT(compared));
}

int LLVMFuzzerInitialize(int *count, char ***words) {
    (void)count, (void)words;
    return atexit(report);
}

/* One input in eight is compared in every call, as its bytes say, so that a finding comes again; COMPARE=1 in the environment
 * compares each. */
static bool to_be_compared(const struct input *in) {
    static int each = -1;
    if (each < 0)
        each = getenv("COMPARE") != NULL;
    uint64_t sum = in->numbers[0] ^ in->numbers[1];
    for (size_t i = 0; i < in->length; i++)
        sum = 31 * sum + in->file[i];
    return each || (sum ^ sum >> 32) % 8 == 0;
}

/* A slot for each number of channels and of blocks in an MCU. */
static uint64_t shape_of(const struct head *head) { return head->channels == 1 ? 0 : 9 * (head->channels - 2) + head->per - 1; }

static void kind_of_file(const struct truth *truth) {
    const struct head *head = &truth->head;
    executions++;
    heads += truth->header == 0;
    accepted += truth->accepted;
    if (truth->header != 0)
        return;
    broken[truth->scan.number]++;
    of_channels[head->channels] += truth->accepted;
    uint64_t scan = truth->accepted ? 32 : 0;
    feedback(BLOCKS, scan + size_class(head->blocks));
    feedback(SHAPE, scan + shape_of(head));
    for (size_t i = 0; truth->accepted && i < head->channels; i++)
        feedback(FACTORS, 16 * i + 4 * (head->across[i] - 1) + head->down[i] - 1);
    feedback(COMMENT_COUNT, scan + (head->comments < 31 ? head->comments : 31));
    feedback(INTERVAL, scan + size_class(head->interval));
}

int LLVMFuzzerTestOneInput(const uint8_t *data, size_t size) {
    struct input in = input_read(data, size);
    if (in.length > FILE_MOST)
        return 0;
    struct room file = room_take(FILE_ARENA, in.length, in.placing);
    room_copy(&file, in.file);
    struct truth truth = learn(&in, &file);
    kind_of_file(&truth);
    if (truth.accepted)
        pool_add(in.file, in.length);
    check_inspect(&in, &file, &truth);
    check_comments(&in, &file, &truth);
    check_decode(&in, &file, &truth);
    check_settle(&in, &file, &truth);
    compare_inspect(&in, &file, &truth);
    if (to_be_compared(&in)) {
        compared++;
        compare_calls(&in, &file, &truth);
    }
    MUST(memcmp(file.at, in.file, in.length) == 0, "the file's bytes were written");
    room_give_back(&file);
    return 0;
}
