/* Tries three codes of length 8 on one block: each gives its best metric, and then one its word.

   Build:   gcc -O2 -Iinclude examples/several.c target/staticlib/libexports.a -o target/several
   Prints:  code 1, metric 39, word 11110000 */
#include "yendrufal.h"
#include <stdio.h>

/* Four rows of a generator for each code. Position 0 is the lowest bit. */
static const uint64_t rows[3][4] = {
    {0x11, 0x22, 0x44, 0x88},
    {0x0f, 0x5a, 0x3c, 0xf0},
    {0x81, 0x42, 0x24, 0x18},
};

static const int16_t samples[8] = {-6, -5, -7, -1, 5, 6, 2, 7};

/* The metrics are ours for all plates, the decisions for the one whose word is wanted. */
static yendrufal_plate plates[3];
static int32_t metrics[YENDRUFAL_METRICS_MOST];
static uint64_t decisions[YENDRUFAL_DECISIONS_MOST];
static const yendrufal_rooms rooms = {metrics, YENDRUFAL_METRICS_MOST, decisions, YENDRUFAL_DECISIONS_MOST};

/* Says what was refused, and in words. */
static int refused(const char *call, yendrufal_reply reply) {
    printf("%s: refusal %d at place %d: %s\n", call, (int)reply.number, (int)reply.place,
           yendrufal_refusal_words(reply.number));
    return 1;
}

/* Takes a block with whichever of the plates has the greatest metric, of equals the first: each plate gives its metric, which needs
   no decisions, and then that one its word. */
static yendrufal_reply receive(const int16_t *block, size_t length, int *best, yendrufal_answer *answer) {
    for (int code = 0; code < 3; code++) {
        yendrufal_answer found;
        const yendrufal_reply reply = yendrufal_plate_metric(&plates[code], block, length, &rooms, &found);
        if (reply.number != YENDRUFAL_DONE) return reply;
        if (code == 0 || found.metric > answer->metric) {
            *best = code;
            answer->metric = found.metric;
        }
    }
    return yendrufal_plate_word(&plates[*best], block, length, &rooms, answer);
}

int main(void) {
    yendrufal_answer answer;
    int best;
    for (int code = 0; code < 3; code++) {
        const yendrufal_reply reply = yendrufal_plate_prepare(8, YENDRUFAL_KIND_G, rows[code], 4, 0, &plates[code]);
        if (reply.number != YENDRUFAL_DONE) return refused("prepare", reply);
    }
    const yendrufal_reply reply = receive(samples, 8, &best, &answer);
    if (reply.number != YENDRUFAL_DONE) return refused("receive", reply);

    printf("code %d, metric %d, word ", best, (int)answer.metric);
    for (int position = 0; position < 8; position++) printf("%d", (int)(answer.word >> position & 1));
    printf("\n");
    return 0;
}
