/* Our three calls through the archive, with buffers that were lent once. */
#include "decoders.h"

size_t ours_inspect(const struct picture *p) {
    tillsparrow_inspected seen = tillsparrow_inspect(p->bytes, p->length, true, SIZE_MAX, SIZE_MAX, SIZE_MAX, UINT64_MAX);
    return seen.number == 0 ? seen.found.output : 0;
}

size_t ours_decode(const struct picture *p) {
    tillsparrow_decoded drawn =
        tillsparrow_decode(p->bytes, p->length, p->found, p->output, p->found.output, p->scratch, p->found.scratch, UINT64_MAX);
    return drawn.number == 0 ? p->found.output : 0;
}

size_t ours_settle(const struct picture *p) {
    tillsparrow_settled written =
        tillsparrow_settle(p->bytes, p->length, SIZE_MAX, SIZE_MAX, SIZE_MAX, UINT64_MAX, p->settled, p->settled_room);
    return written.number == 0 ? written.length : 0;
}
