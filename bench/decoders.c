/* Two decoders in C to hold the library against: a straightforward one, and one that works on blocks of
   64 states. Both go from the far end to the start, find the sections in the plate, and leave the part
   of the rooms that they used zero, as the library does; they trust the plate and the samples. The third is
   the straightforward one behind the tests that the library makes. */
#include <stddef.h>
#include <stdint.h>
#include <string.h>

enum { NONE = 16, MASK = 131 }; /* no row ends in a section, else the digit of the row that does; the mask's place */

struct section {
    unsigned live, begins, ending, turned; /* turned: the mask's bit at the position */
    uint64_t column;
};

typedef void step(const struct section *c, int32_t sample, const int32_t *restrict from,
                  int32_t *restrict to, uint64_t *restrict decisions);

/* The branch number without the digit of the row that ends. */
static inline size_t without(size_t x, unsigned ending) {
    return ending == NONE ? x : (x >> (ending + 1)) << ending | (x & (((size_t)1 << ending) - 1));
}

static inline unsigned parity(uint64_t word) { return (unsigned)__builtin_popcountll(word) & 1; }

/* The sections of a plate, with a running table of its live rows. */
static void find_sections(const uint64_t *plate, struct section *sections) {
    uint64_t live[16], next = 0;
    unsigned count = 0;
    for (uint64_t t = 0; t < plate[0]; t++) {
        struct section c = {count, 0, NONE, plate[MASK] >> t & 1, 0};
        if (next < plate[1] && (plate[2 + next] >> t & 1)) {
            c.begins = 1;
            live[count++] = plate[2 + next++];
        }
        for (unsigned j = 0; j < count; j++) {
            c.column |= (live[j] >> t & 1) << j;
            if (live[j] >> t == 1) c.ending = j;
        }
        if (c.ending != NONE) {
            count--;
            for (unsigned j = c.ending; j < count; j++) live[j] = live[j + 1];
        }
        sections[t] = c;
    }
}

/* The better branch of one state: its metric, and its bit through `bit`. */
static inline int32_t better(const struct section *c, int32_t sample, const int32_t *restrict from, size_t x,
                             unsigned *bit) {
    unsigned plain = parity(x & c->column) ^ c->turned;
    int32_t a = from[without(x, c->ending)];
    if (!c->begins) {
        *bit = plain;
        return plain ? a - sample : a + sample;
    }
    int32_t b = from[without(x + ((size_t)1 << c->live), c->ending)];
    int32_t zero = (plain ? b : a) + sample, one = (plain ? a : b) - sample;
    *bit = one > zero;
    return *bit ? one : zero;
}

/* One state after the other, as the definition goes. */
static void step_straight(const struct section *c, int32_t sample, const int32_t *restrict from,
                          int32_t *restrict to, uint64_t *restrict decisions) {
    for (size_t x = 0; x < (size_t)1 << c->live; x++) {
        unsigned bit;
        to[x] = better(c, sample, from, x, &bit);
        decisions[x / 64] |= (uint64_t)bit << (x % 64);
    }
}

/* Up to 64 states, from the last down, with their decisions gathered in one word. */
static void step_narrow(const struct section *c, int32_t sample, const int32_t *restrict from,
                        int32_t *restrict to, uint64_t *restrict decisions) {
    uint64_t word = 0;
    for (size_t x = (size_t)1 << c->live; x-- > 0;) {
        unsigned bit;
        to[x] = better(c, sample, from, x, &bit);
        word = 2 * word + bit;
    }
    decisions[0] = word;
}

/* The parity of x and column for 64 states from a multiple of 64 on, by the column's low six digits. */
static uint64_t pattern(uint64_t column) {
    static const uint64_t digits[6] = {0xaaaaaaaaaaaaaaaa, 0xcccccccccccccccc, 0xf0f0f0f0f0f0f0f0,
                                       0xff00ff00ff00ff00, 0xffff0000ffff0000, 0xffffffff00000000};
    uint64_t word = 0;
    for (int j = 0; j < 6; j++)
        if (column >> j & 1) word ^= digits[j];
    return word;
}

/* The metrics that 64 states' branches lead to: each run of 2^ending is read twice. */
static inline void fetch(const int32_t *restrict from, unsigned ending, int32_t *restrict out) {
    switch (ending) {
    case 0:
        for (int i = 0; i < 32; i++) out[2 * i] = out[2 * i + 1] = from[i];
        break;
    case 1:
        for (int i = 0; i < 16; i++)
            for (int l = 0; l < 2; l++) out[4 * i + l] = out[4 * i + 2 + l] = from[2 * i + l];
        break;
    case 2: case 3: case 4: case 5:
        for (int j = 0; j < 16; j++) {
            size_t run = without((size_t)j, ending - 2);
            for (int l = 0; l < 4; l++) out[4 * j + l] = from[4 * run + l];
        }
        break;
    default: memcpy(out, from, 64 * sizeof *out);
    }
}

/* 64 numbers 0 or 1 as the bits of a word. */
static inline uint64_t pack(uint32_t *t) {
    for (int i = 0; i < 16; i++) t[i] |= t[i + 16] << 16, t[i + 32] |= t[i + 48] << 16;
    for (int i = 0; i < 8; i++) t[i] |= t[i + 8] << 8, t[i + 32] |= t[i + 40] << 8;
    for (int i = 0; i < 4; i++) t[i] |= t[i + 4] << 4, t[i + 32] |= t[i + 36] << 4;
    uint32_t low = t[0] | t[1] << 1 | t[2] << 2 | t[3] << 3;
    uint32_t high = t[32] | t[33] << 1 | t[34] << 2 | t[35] << 3;
    return low | (uint64_t)high << 32;
}

/* What a block needs of a section: for each of 64 states the gain of the branch without the beginning row,
   and 1 where its bit is 1, so that the other branch is to be taken on a tie. */
struct gains {
    int32_t gain[64], tie[64];
};

static void make_gains(struct gains *g, uint64_t ones, int32_t sample) {
    for (int i = 0; i < 64; i++) {
        g->tie[i] = ones >> i & 1;
        g->gain[i] = g->tie[i] ? -sample : sample;
    }
}

/* The choice for 64 states whose branches lead to the metrics zero and one. */
static inline uint64_t choose(const struct gains *g, const int32_t *restrict zero, const int32_t *restrict one,
                              int32_t *restrict to) {
    uint32_t taken[64];
    for (int i = 0; i < 64; i++) {
        int32_t a = zero[i] + g->gain[i], b = one[i] - g->gain[i];
        taken[i] = b + g->tie[i] > a;
        to[i] = taken[i] ? b : a;
    }
    return pack(taken);
}

/* Blocks of 64 states: metrics fetched into local arrays, choices that vectorise, decisions packed. */
static void step_block(const struct section *c, int32_t sample, const int32_t *restrict from,
                       int32_t *restrict to, uint64_t *restrict decisions) {
    if (c->live < 7) {
        step_narrow(c, sample, from, to, decisions);
        return;
    }
    size_t states = (size_t)1 << c->live, far = without(states, c->ending);
    uint64_t ones = c->turned ? ~pattern(c->column) : pattern(c->column);
    struct gains gains[2];
    int32_t zero[64], one[64];
    make_gains(&gains[0], ones, sample);
    make_gains(&gains[1], ~ones, sample);
    for (size_t x = 0; x < states; x += 64) {
        unsigned turned = parity(x & c->column);
        size_t at = without(x, c->ending);
        decisions[x / 64] = turned ? ~ones : ones;
        fetch(from + at, c->ending, zero);
        if (c->begins) {
            fetch(from + at + far, c->ending, one);
            decisions[x / 64] ^= choose(&gains[turned], zero, one, to + x);
        } else {
            for (int i = 0; i < 64; i++) to[x + i] = zero[i] + gains[turned].gain[i];
        }
    }
}

/* Sweeps from the far end, reads the word off from the start, clears the rooms. */
static inline void decode(step *take, const uint64_t *plate, const int16_t *samples, int32_t *metrics,
                          uint64_t *decisions, uint64_t *word, int32_t *metric) {
    struct section sections[64];
    size_t n = plate[0], half = 1, state = 0;
    for (size_t t = 0; t <= n; t++)
        if (half >> plate[66 + t] == 0) half = (size_t)1 << plate[66 + t];
    size_t words = half < 64 ? 1 : half / 64;
    find_sections(plate, sections);
    int32_t *from = metrics, *to = metrics + half;
    from[0] = 0;
    for (size_t t = n; t-- > 0;) {
        take(&sections[t], samples[t], from, to, decisions + t * words);
        int32_t *swap = from;
        from = to, to = swap;
    }
    *metric = from[0];
    *word = 0;
    for (size_t t = 0; t < n; t++) {
        const struct section *c = &sections[t];
        uint64_t bit = decisions[t * words + state / 64] >> (state % 64) & 1;
        if (bit != (parity(state & c->column) ^ c->turned)) state |= (size_t)1 << c->live;
        *word |= bit << t;
        state = without(state, c->ending);
    }
    memset(metrics, 0, 2 * half * sizeof *metrics);
    memset(decisions, 0, n * words * sizeof *decisions);
}

void c_straight(const uint64_t *plate, const int16_t *samples, int32_t *metrics, uint64_t *decisions,
                uint64_t *word, int32_t *metric) {
    decode(step_straight, plate, samples, metrics, decisions, word, metric);
}

/* Whether row i may stand in a plate beside the rows before it and those that end sooner. */
static int stands(const uint64_t *rows, uint64_t k, uint64_t i, uint64_t n) {
    if (rows[i] == 0 || (n < 64 && rows[i] >> n)) return 0;
    if (i > 0 && __builtin_ctzll(rows[i]) <= __builtin_ctzll(rows[i - 1])) return 0;
    for (uint64_t j = 0; j < k; j++) {
        int sooner = __builtin_clzll(rows[j]) - __builtin_clzll(rows[i]);
        if (j != i && sooner == 0) return 0;
        if (sooner > 0 && (rows[i] >> __builtin_ctzll(rows[j]) & 1)) return 0;
    }
    return 1;
}

/* Whether a plate is prepared: its rows and mask, the rows live at each depth, and nothing in the unused places. */
static int is_prepared(const uint64_t *plate) {
    uint64_t n = plate[0], k = plate[1];
    const uint64_t *rows = plate + 2, *profile = plate + 66;
    if (n < 1 || n > 64 || k > 64 || (n < 64 && plate[MASK] >> n)) return 0;
    for (uint64_t i = 0; i < k; i++)
        if (rows[i] == 0) return 0;
    for (uint64_t i = 0; i < k; i++)
        if (!stands(rows, k, i, n)) return 0;
    for (uint64_t t = 0; t <= n; t++) {
        uint64_t live = 0;
        for (uint64_t i = 0; i < k; i++)
            live += (uint64_t)__builtin_ctzll(rows[i]) < t && t <= 63 - (uint64_t)__builtin_clzll(rows[i]);
        if (live != profile[t] || live > 12) return 0;
    }
    for (uint64_t i = k; i < 64; i++)
        if (rows[i]) return 0;
    for (uint64_t t = n + 1; t < 65; t++)
        if (profile[t]) return 0;
    return 1;
}

/* The straightforward decoder behind the tests of plate and samples: 0, or the number of the refusal. */
int c_tested(const uint64_t *plate, const int16_t *samples, int32_t *metrics, uint64_t *decisions, uint64_t *word,
             int32_t *metric) {
    if (!is_prepared(plate)) return 5;
    for (uint64_t t = 0; t < plate[0]; t++)
        if (samples[t] < -2047 || samples[t] > 2047) return 7;
    decode(step_straight, plate, samples, metrics, decisions, word, metric);
    return 0;
}

void c_block(const uint64_t *plate, const int16_t *samples, int32_t *metrics, uint64_t *decisions,
             uint64_t *word, int32_t *metric) {
    decode(step_block, plate, samples, metrics, decisions, word, metric);
}
