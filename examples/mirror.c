/* Reads the rows of the (7,4) Hamming code from the left, as they are meant, and from the right, and decodes the
   same samples with both plates. Both codes have the same n, k and m, and the same counts, and nothing is refused;
   the profile and the word tell them apart.

   Build:   gcc -O2 -Iinclude examples/mirror.c target/staticlib/libexports.a -o target/mirror
   Prints:  from the left: profile 0 1 2 2 3 2 1 0, word 0111100, metric 21
            from the right: profile 0 1 2 3 2 2 1 0, word 0101101, metric 17 */
#include "yendrufal.h"
#include <stdio.h>

/* A generator as it stands on paper, with position 0 at the left. */
static const char *const rows[4] = {"1110000", "1001100", "0101010", "1101001"};

/* One sample a position, position 0 first. */
static const int16_t samples[7] = {5, -4, 2, -3, -6, 1, 4};

static int32_t metrics[YENDRUFAL_METRICS(3)];
static uint64_t decisions[YENDRUFAL_DECISIONS(7, 3)];
static const yendrufal_rooms rooms = {metrics, YENDRUFAL_METRICS(3), decisions, YENDRUFAL_DECISIONS(7, 3)};

/* The word of a row whose position 0 is its leftmost character, or its rightmost. */
static uint64_t word_of(const char *row, int rightmost) {
    uint64_t word = 0;
    for (int i = 0; i < 7; i++)
        if (row[i] == '1') word |= (uint64_t)1 << (rightmost ? 6 - i : i);
    return word;
}

/* Says what was refused, and in words. */
static int refused(const char *call, yendrufal_reply reply) {
    printf("%s: refusal %d at place %d: %s\n", call, (int)reply.number, (int)reply.place,
           yendrufal_refusal_words(reply.number));
    return 1;
}

/* Prepares the rows as they are read and decodes the samples; prints profile, word and metric. */
static int show(const char *end, int rightmost) {
    uint64_t matrix[4];
    yendrufal_plate plate;
    yendrufal_answer answer;
    for (int i = 0; i < 4; i++) matrix[i] = word_of(rows[i], rightmost);
    yendrufal_reply reply = yendrufal_plate_prepare(7, YENDRUFAL_KIND_G, matrix, 4, 0, &plate);
    if (reply.number != YENDRUFAL_DONE) return refused("prepare", reply);
    reply = yendrufal_plate_decode(&plate, samples, 7, &rooms, &answer);
    if (reply.number != YENDRUFAL_DONE) return refused("decode", reply);

    printf("from the %s: profile", end);
    for (int depth = 0; depth <= 7; depth++) printf(" %d", (int)plate.words[YENDRUFAL_PLATE_PROFILE + depth]);
    printf(", word ");
    for (int position = 0; position < 7; position++) printf("%d", (int)(answer.word >> position & 1));
    printf(", metric %d\n", (int)answer.metric);
    return 0;
}

int main(void) { return show("left", 0) || show("right", 1); }
