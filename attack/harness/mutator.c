/* Changes that leave a JPEG file mostly well formed, so that they come past the head: bits of the scan, its end, 255s in it with and
 * without a 0, whole segments moved, copied and cut, lengths, comments, restarts, fill bytes in head and scan, the frame's fields, the
 * number of channels, tables' symbols; and libFuzzer's own changes beside them. */
#include "harness.h"

#include <string.h>

size_t LLVMFuzzerMutate(uint8_t *data, size_t size, size_t most);

enum { SEGMENTS = 48 };

struct segment {
    size_t at, end; /* from its 255 to behind its body */
    uint8_t code;
};

/* A file in a buffer that may grow to `most` bytes, and what can be made out of its segments. */
struct draft {
    uint8_t *file;
    size_t length, most;
    struct segment segments[SEGMENTS];
    size_t count;
    size_t scan; /* the first byte behind the last segment that was made out */
    uint64_t random;
};

static uint64_t below(struct draft *d, uint64_t bound) {
    d->random ^= d->random << 13;
    d->random ^= d->random >> 7;
    d->random ^= d->random << 17;
    return bound == 0 ? 0 : (d->random >> 11) % bound;
}

static void take_apart(struct draft *d) {
    size_t at = 2;
    d->count = 0;
    d->scan = d->length < 2 ? d->length : 2;
    while (d->count < SEGMENTS && at + 4 <= d->length && d->file[at] == 255) {
        size_t end = at + 2 + 256 * (size_t)d->file[at + 2] + d->file[at + 3];
        if (end > d->length || end < at + 4)
            return;
        d->segments[d->count++] = (struct segment){at, end, d->file[at + 1]};
        d->scan = at = end;
        if (d->file[d->segments[d->count - 1].at + 1] == 218)
            return;
    }
}

static void insert(struct draft *d, size_t at, const uint8_t *bytes, size_t length) {
    if (at > d->length || length > d->most - d->length)
        return;
    memmove(d->file + at + length, d->file + at, d->length - at);
    memcpy(d->file + at, bytes, length);
    d->length += length;
}

static void cut(struct draft *d, size_t at, size_t length) {
    if (at > d->length || length > d->length - at)
        return;
    memmove(d->file + at, d->file + at + length, d->length - at - length);
    d->length -= length;
}

static const struct segment *some_segment(struct draft *d) { return d->count == 0 ? NULL : &d->segments[below(d, d->count)]; }

/* A place between two segments. */
static size_t some_seam(struct draft *d) {
    const struct segment *segment = some_segment(d);
    return segment == NULL ? d->scan : segment->at;
}

static void flip_scan_bits(struct draft *d) {
    if (d->scan >= d->length)
        return;
    for (uint64_t times = 1 + below(d, 4); times > 0; times--)
        d->file[d->scan + below(d, d->length - d->scan)] ^= (uint8_t)(1 << below(d, 8));
}

static bool is_restart(uint8_t code) { return (code & 248) == 208; }

/* The place of the first byte from here on that is not 255, or the end. */
static size_t behind_fill(const struct draft *d, size_t at) {
    while (at < d->length && d->file[at] == 255)
        at++;
    return at;
}

/* A run of the scan through libFuzzer's changes, and a 0 behind each 255 in it that belongs to no restart and not to the end, as their
 * own or as fill before them. */
static void change_scan(struct draft *d) {
    if (d->scan + 2 >= d->length)
        return;
    d->length = LLVMFuzzerMutate(d->file + d->scan, d->length - 2 - d->scan, d->most - d->scan) + d->scan;
    insert(d, d->length, (const uint8_t[]){255, 217}, 2);
    for (size_t i = d->scan; i + 1 < d->length; i++) {
        size_t code = behind_fill(d, i);
        if (code > i && (code + 1 >= d->length || is_restart(d->file[code])))
            i = code;
        else if (code > i && d->file[i + 1] != 0)
            insert(d, i + 1, (const uint8_t[]){0}, 1);
    }
}

static void put_in_scan(struct draft *d) {
    static const uint8_t marks[][2] = {{255, 0}, {255, 208}, {255, 209}, {255, 215}, {255, 217}, {255, 255}, {0, 0}};
    if (d->scan >= d->length)
        return;
    size_t at = d->scan + below(d, d->length - d->scan);
    if (below(d, 3) == 0)
        cut(d, at, 1 + below(d, 4));
    else
        insert(d, at, marks[below(d, 7)], 2);
}

static void move_segment(struct draft *d) {
    uint8_t body[4096];
    const struct segment *from = some_segment(d);
    if (from == NULL || from->end - from->at > sizeof body)
        return;
    struct segment segment = *from;
    size_t length = segment.end - segment.at, to = some_seam(d);
    memcpy(body, d->file + segment.at, length);
    if (below(d, 2) == 0) {
        cut(d, segment.at, length);
        to = to > segment.at ? to - length : to;
    }
    insert(d, to, body, length);
}

static void cut_segment(struct draft *d) {
    const struct segment *segment = some_segment(d);
    if (segment != NULL)
        cut(d, segment->at, segment->end - segment->at);
}

static void change_length(struct draft *d) {
    const struct segment *segment = some_segment(d);
    if (segment != NULL)
        d->file[segment->at + 3] = (uint8_t)(d->file[segment->at + 3] + below(d, 9) - 4);
}

static void change_body(struct draft *d) {
    const struct segment *segment = some_segment(d);
    if (segment == NULL || segment->end - segment->at <= 4)
        return;
    uint8_t *byte = &d->file[segment->at + 4 + below(d, segment->end - segment->at - 4)];
    *byte = (uint8_t)(below(d, 2) == 0 ? below(d, 256) : *byte + below(d, 5) - 2);
}

static void insert_comment(struct draft *d) {
    uint8_t comment[4 + 24] = {255, 254, 0, 2};
    size_t text = below(d, 4) == 0 ? 0 : below(d, 24);
    comment[3] = (uint8_t)(2 + text);
    for (size_t i = 0; i < text; i++)
        comment[4 + i] = (uint8_t)below(d, 256);
    insert(d, some_seam(d), comment, 4 + text);
}

static void insert_interval(struct draft *d) {
    uint8_t interval[6] = {255, 221, 0, 4, 0, (uint8_t)below(d, 6)};
    if (below(d, 8) == 0)
        interval[4] = (uint8_t)below(d, 256);
    insert(d, some_seam(d), interval, 6);
}

static void insert_fill(struct draft *d) { insert(d, some_seam(d), (const uint8_t[]){255, 255, 255}, 1 + below(d, 3)); }

/* The place of a marker of the scan, every one as likely as the others; the end where there is none. */
static size_t some_marker(struct draft *d) {
    size_t at = d->length;
    uint64_t met = 0;
    for (size_t i = d->scan; i + 1 < d->length; i++)
        if (d->file[i] == 255 && (is_restart(d->file[i + 1]) || d->file[i + 1] == 217) && below(d, ++met) == 0)
            at = i;
    return at;
}

/* Fill in the scan: mostly before a marker, where it is taken; else anywhere, so where a bit is wanted, or at the end, with the last
 * marker before it or without one. */
static void fill_scan(struct draft *d) {
    uint8_t fill[300];
    size_t many = 1 + (size_t)below(d, below(d, 6) == 0 ? sizeof fill : 3);
    if (d->scan + 2 >= d->length)
        return;
    size_t at = some_marker(d);
    switch (below(d, 8)) {
    case 0: at = d->length; break;
    case 1: cut(d, d->length - 2, 2), at = d->length; break;
    case 2: at = d->scan + 1 + (size_t)below(d, d->length - d->scan); break;
    default: break;
    }
    memset(fill, 255, many);
    insert(d, at, fill, many);
}

/* The place behind a 255 of the scan, every one as likely as the others; the end where there is none. */
static size_t behind_some_255(struct draft *d) {
    size_t at = d->length;
    uint64_t met = 0;
    for (size_t i = d->scan; i < d->length; i++)
        if (d->file[i] == 255 && below(d, ++met) == 0)
            at = i + 1;
    return at;
}

/* A scan that breaks, mostly by one of the reasons that have a number of their own: it is cut at any place, or behind a 255; a 255 is put
 * in without its 0, or loses it, or gets another byte behind it; sixteen ones and more, which are no code. */
static void break_scan(struct draft *d) {
    static const uint8_t ones[] = {255, 0, 255, 0, 255, 0};
    if (d->scan >= d->length)
        return;
    size_t at = d->scan + (size_t)below(d, d->length - d->scan), behind = behind_some_255(d);
    uint8_t any = (uint8_t)below(d, 256);
    switch (below(d, 6)) {
    case 0: d->length = at; break;
    case 1: d->length = behind; break;
    case 2: insert(d, at, (const uint8_t[]){255, any}, 1 + below(d, 2)); break;
    case 3: cut(d, behind, 1); break;
    case 4:
        if (behind < d->length)
            d->file[behind] = any;
        break;
    default: insert(d, at, ones, 2 * (1 + below(d, 3))); break;
    }
}

/* The frame's sides small, and the sampling of some channel one of those that are read, or nearly. */
static void change_frame(struct draft *d) {
    for (size_t i = 0; i < d->count; i++) {
        const struct segment *s = &d->segments[i];
        if ((s->code != 192 && s->code != 193) || s->end - s->at < 15 - 2)
            continue;
        uint8_t *body = d->file + s->at + 4;
        switch (below(d, 4)) {
        case 0: body[2] = (uint8_t)below(d, 40); break;
        case 1: body[4] = (uint8_t)below(d, 40); break;
        case 2: body[7 + 3 * below(d, (s->end - s->at - 10) / 3)] = (uint8_t)(16 * below(d, 6) + below(d, 6)); break;
        default: body[below(d, s->end - s->at - 4)] = (uint8_t)below(d, 256); break;
        }
    }
}

static const struct segment *last_segment(const struct draft *d, uint8_t code, uint8_t other) {
    const struct segment *found = NULL;
    for (size_t i = 0; i < d->count; i++)
        if (d->segments[i].code == code || d->segments[i].code == other)
            found = &d->segments[i];
    return found;
}

/* One channel less, or one more, in frame and scan alike: like the last one, but for its id. The scan behind stays, so that blocks are
 * then read by other tables and as other channels'. */
static void change_channels(struct draft *d) {
    const struct segment *frame = last_segment(d, 192, 193), *scan = last_segment(d, 218, 218);
    if (frame == NULL || scan == NULL || scan->at < frame->end || frame->end - frame->at < 13 || d->most - d->length < 5)
        return;
    size_t channels = d->file[frame->at + 9], tables = scan->end - 3;
    if (frame->end - frame->at != 10 + 3 * channels || scan->end - scan->at != 8 + 2 * channels)
        return;
    bool more = below(d, 2) == 0;
    uint8_t component[3], chosen[2];
    memcpy(component, d->file + frame->end - 3, 3);
    memcpy(chosen, d->file + tables - 2, 2);
    component[0] = chosen[0] = (uint8_t)(component[0] + 1 + below(d, 2));
    d->file[frame->at + 3] = (uint8_t)(d->file[frame->at + 3] + (more ? 3 : -3));
    d->file[frame->at + 9] = (uint8_t)(more ? channels + 1 : channels - 1);
    d->file[scan->at + 3] = (uint8_t)(d->file[scan->at + 3] + (more ? 2 : -2));
    d->file[scan->at + 4] = d->file[frame->at + 9];
    /* the scan first, since it stands behind */
    if (more) {
        insert(d, tables, chosen, 2);
        insert(d, frame->end, component, 3);
    } else {
        cut(d, tables - 2, 2);
        cut(d, frame->end - 3, 3);
    }
}

/* The symbols of one table, every table as likely as the others: their place, and how many there are. */
static uint8_t *some_symbols(struct draft *d, size_t *count) {
    uint8_t *symbols = NULL;
    uint64_t met = 0;
    for (size_t i = 0; i < d->count; i++) {
        const struct segment *s = &d->segments[i];
        for (size_t at = s->at + 4; s->code == 196 && at + 17 < s->end;) {
            size_t listed = 0;
            for (size_t length = 1; length <= 16; length++)
                listed += d->file[at + length];
            if (listed == 0 || listed > s->end - at - 17)
                break;
            if (below(d, ++met) == 0) {
                symbols = d->file + at + 17;
                *count = listed;
            }
            at += 17 + listed;
        }
    }
    return symbols;
}

/* A symbol exchanged with another of its table, so that the table is still taken; or the other's once more, or one at an edge of what a
 * block takes. */
static void change_symbol(struct draft *d) {
    static const uint8_t edges[] = {0, 10, 11, 12, 16, 224, 240, 241, 250, 251, 255};
    size_t count = 0;
    uint8_t *symbols = some_symbols(d, &count);
    if (symbols == NULL)
        return;
    uint8_t *one = &symbols[below(d, count)], *other = &symbols[below(d, count)], kept = *one;
    switch (below(d, 4)) {
    case 0: *one = *other; break;
    case 1: *one = edges[below(d, sizeof edges)]; break;
    default: *one = *other, *other = kept; break;
    }
}

static bool accepted(const uint8_t *file, size_t length) {
    return tillsparrow_inspect(file, length, false, UINT64_MAX, UINT64_MAX, 65536, UINT64_MAX).number == 0;
}

/* Looks for an end of the changed scan at which the file is accepted: at each byte, with 0 to 7 bits of padding. */
static void find_end(struct draft *d) {
    uint8_t trial[1024];
    if (d->scan >= d->length || d->length - d->scan > 80 || d->length + 32 > sizeof trial || d->length + 32 > d->most)
        return;
    memcpy(trial, d->file, d->length);
    size_t last = d->length - 2;
    for (int i = 0; i < 12; i++)
        trial[last++] = (uint8_t)below(d, 255);
    for (size_t end = d->scan; end < last; end++)
        for (int padding = 0; padding < 8; padding++) {
            uint8_t closing[3] = {(uint8_t)(trial[end] | ((1 << padding) - 1)), 255, 217}, kept[3];
            memcpy(kept, trial + end, 3);
            memcpy(trial + end, closing, 3);
            if (accepted(trial, end + 3)) {
                memcpy(d->file, trial, end + 3);
                d->length = end + 3;
                return;
            }
            memcpy(trial + end, kept, 3);
        }
}

static void change_file(struct draft *d) {
    static void (*const changes[])(struct draft *) = {flip_scan_bits,  flip_scan_bits, change_scan,   change_scan,   put_in_scan,
                                                      move_segment,    cut_segment,    change_length, change_body,   insert_comment,
                                                      insert_interval, insert_fill,    change_frame,  change_symbol, fill_scan,
                                                      break_scan,      break_scan,     change_frame,  change_channels};
    take_apart(d);
    changes[below(d, sizeof changes / sizeof changes[0])](d);
}

static void change_control(struct draft *d, uint8_t *control) {
    static const uint8_t common[] = {0, 1, 2, 3, 4, 5, 6, 7, 8, 9, 10, 12, 255};
    size_t at = below(d, CONTROL);
    control[at] = (uint8_t)(at < 12 && below(d, 2) == 0 ? common[below(d, sizeof common)] : below(d, 256));
}

size_t LLVMFuzzerCustomMutator(uint8_t *data, size_t size, size_t most, unsigned seed) {
    struct draft d = {.random = seed * 0x9e3779b97f4a7c15u + 1};
    if (size < CONTROL || most < CONTROL + 64 || below(&d, 8) == 0)
        return LLVMFuzzerMutate(data, size, most);
    d.file = data + CONTROL;
    d.length = size - CONTROL;
    d.most = most - CONTROL;
    if (below(&d, 2) == 0) {
        size_t taken = pool_take(below(&d, UINT64_MAX), d.file, d.most);
        d.length = taken > 0 ? taken : d.length;
    }
    if (below(&d, 3) == 0)
        change_control(&d, data);
    else
        for (uint64_t times = 1 + below(&d, 3); times > 0; times--)
            change_file(&d);
    if (below(&d, 64) == 0) {
        take_apart(&d);
        flip_scan_bits(&d);
        find_end(&d);
    }
    return CONTROL + d.length;
}
