/* Answers batches of calls to the library over standard input and output, for a library that runs on
   another machine than the comparison (src/bridge.rs says what a batch is). It asks nothing of the
   C library but read and write. */
#include "../include/yendrufal.h"

long read(int file, void *bytes, size_t count);
long write(int file, const void *bytes, size_t count);

enum { GUARD = 4, MOST = 1 << 23 };

static uint64_t batch[MOST / 8];

struct run {
    void *cells;
    size_t count;
};

static int all(long (*step)(int, void *, size_t), int file, char *bytes, size_t count) {
    while (count > 0) {
        long done = step(file, bytes, count);
        if (done <= 0) return 0;
        bytes += done;
        count -= (size_t)done;
    }
    return 1;
}

static long write_some(int file, void *bytes, size_t count) { return write(file, bytes, count); }

/* The value whose bits these are. */
static float value_of(uint64_t bits) {
    union {
        uint32_t bits;
        float value;
    } both = {(uint32_t)bits};
    return both.value;
}

#define RUN(i) r[i].cells, r[i].count

static uint64_t ask(uint64_t call, const uint64_t *n, const struct run *r) {
    switch (call) {
    case 0: return yendrufal_prepare(n[0], n[1], RUN(0), n[2], RUN(1), RUN(2));
    case 1: return yendrufal_branch(RUN(0), n[0], n[1], n[2], RUN(1));
    case 2: return yendrufal_encode(RUN(0), n[0], RUN(1));
    case 3: return yendrufal_read_back(RUN(0), n[0], RUN(1));
    case 4: return yendrufal_decode(RUN(0), RUN(1), RUN(2), RUN(3), RUN(4), RUN(5), RUN(6), RUN(7));
    case 5: return yendrufal_write_plate(RUN(0), RUN(1), RUN(2));
    case 6: return yendrufal_write_profile(RUN(0), RUN(1), RUN(2));
    case 7: return yendrufal_write_word(RUN(0), n[0], (int32_t)n[1], n[2], n[3], RUN(1), RUN(2));
    case 8: return yendrufal_write_refused(n[0], n[1], n[2], RUN(0), RUN(1));
    case 9: return yendrufal_write_end(n[0], RUN(0), RUN(1));
    case 10: return yendrufal_firmness(RUN(0), RUN(1), n[0], RUN(2), RUN(3), RUN(4), RUN(5), RUN(6));
    case 11: return yendrufal_metric(RUN(0), RUN(1), RUN(2), RUN(3), RUN(4), RUN(5));
    case 12: return yendrufal_word(RUN(0), RUN(1), RUN(2), RUN(3), RUN(4), RUN(5), RUN(6));
    case 13: return yendrufal_why_not(RUN(0), RUN(1), n[0], RUN(2), RUN(3), RUN(4), RUN(5), RUN(6));
    case 14: return yendrufal_decode_blocks(RUN(0), RUN(1), RUN(2), RUN(3), RUN(4), RUN(5), RUN(6), RUN(7));
    case 15: return yendrufal_plate_of_sheet(RUN(0), RUN(1), RUN(2), RUN(3));
    case 16: return yendrufal_write_tally(n[0], n[1], n[2], n[3], n[4], n[5], n[6], n[7], n[8], RUN(0), RUN(1));
    case 17: return yendrufal_write_weight(n[0], n[1], RUN(0), RUN(1));
    case 18: return yendrufal_write_least(n[0], RUN(0), RUN(1));
    case 19: return yendrufal_write_no_least(RUN(0), RUN(1));
    case 20: return yendrufal_widest_entry(RUN(0), RUN(1));
    case 21: return yendrufal_level(value_of(n[0]), n[1], value_of(n[2]), n[3], RUN(0));
    case 22: return yendrufal_levels(n[0], value_of(n[1]), n[2], RUN(0), n[3], RUN(1), RUN(2));
    case 23: return yendrufal_weights(RUN(0), RUN(1), RUN(2), RUN(3));
    case 24: return yendrufal_firmness_all(RUN(0), RUN(1), RUN(2), RUN(3), RUN(4), RUN(5), RUN(6));
    case 25: return yendrufal_read_alist(RUN(0), RUN(1), RUN(2), RUN(3));
    case 26: return yendrufal_write_alist(n[0], RUN(0), RUN(1), RUN(2), RUN(3));
    case 27: return yendrufal_judge(RUN(0), RUN(1), RUN(2), RUN(3), RUN(4), RUN(5), RUN(6));
    default: return yendrufal_listing(RUN(0), RUN(1), RUN(2), RUN(3), RUN(4));
    }
}

/* Answers the call that begins here; gives back where the next begins. */
static uint64_t *answer(uint64_t *call) {
    uint64_t *numbers = call + 2, *at = numbers + call[1];
    struct run runs[8] = {{0}};
    size_t count = *at++;
    for (size_t i = 0; i < count; i++) {
        uint64_t width = at[0], cells = at[1];
        runs[i].count = cells - 2 * GUARD;
        runs[i].cells = runs[i].count == 0 ? NULL : (char *)(at + 2) + GUARD * width;
        at += 2 + (width * cells + 7) / 8;
    }
    call[0] = ask(call[0], numbers, runs);
    return at;
}

int main(void) {
    uint64_t length;
    while (all(read, 0, (char *)&length, sizeof length)) {
        if (length > MOST || !all(read, 0, (char *)batch, length)) return 1;
        for (uint64_t *at = batch; at < batch + length / 8;) at = answer(at);
        if (!all(write_some, 1, (char *)batch, length)) return 1;
    }
    return 0;
}
