/* Prepares a code of length 8, decodes one block of samples with it, and prints the answer.

   Build:   gcc -O2 -Iinclude examples/decode.c target/staticlib/libexports.a -o target/decode
   Prints:  word 11110000, metric 19, additions 44, comparisons 11 */
#include "yendrufal.h"
#include <stdio.h>

/* Four rows of a generator. Position 0 is the lowest bit, so the row 11110000 on paper is 0x0f. */
static const uint64_t rows[4] = {0x0f, 0x5a, 0x3c, 0xf0};

/* One sample a position: positive favours 0, negative favours 1, and -2047 to 2047 is permitted. */
static const int16_t samples[8] = {-3, -2, 4, -1, 5, 6, -1, 7};

/* The library has no memory of its own: the plate and the working rooms are ours. These rooms are
   enough for any plate; for one plate known in advance YENDRUFAL_METRICS and YENDRUFAL_DECISIONS say
   how little will do (for this one 16 and 8 cells). */
static yendrufal_plate plate;
static int32_t metrics[YENDRUFAL_METRICS_MOST];
static uint64_t decisions[YENDRUFAL_DECISIONS_MOST];
static const yendrufal_rooms rooms = {metrics, YENDRUFAL_METRICS_MOST, decisions, YENDRUFAL_DECISIONS_MOST};

/* Says what was refused, and in words. */
static int refused(const char *call, yendrufal_reply reply) {
    printf("%s: refusal %d at place %d: %s\n", call, (int)reply.number, (int)reply.place,
           yendrufal_refusal_words(reply.number));
    return 1;
}

int main(void) {
    yendrufal_answer answer;

    /* Once for each code. The mask is 0: none. */
    yendrufal_reply reply = yendrufal_plate_prepare(8, YENDRUFAL_KIND_G, rows, 4, 0, &plate);
    if (reply.number != YENDRUFAL_DONE) return refused("prepare", reply);

    /* Once for each block. Afterwards the part of the rooms that was needed is zero again. */
    reply = yendrufal_plate_decode(&plate, samples, 8, &rooms, &answer);
    if (reply.number != YENDRUFAL_DONE) return refused("decode", reply);

    printf("word ");
    for (int position = 0; position < 8; position++) printf("%d", (int)(answer.word >> position & 1));
    printf(", metric %d, additions %d, comparisons %d\n", (int)answer.metric, (int)answer.additions,
           (int)answer.comparisons);
    return 0;
}
