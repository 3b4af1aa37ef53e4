/* The depot's question about a received block: how firm is each flag? A code of length 8 whose last position is fixed by its mask.

   Build:   gcc -O2 -Iinclude examples/depot.c target/staticlib/libexports.a -o target/depot
   Prints:  position 0: open, margin -4, received 1
            position 1: open, margin -4, received 1
            position 2: open, margin -4, received 1
            position 3: open, margin -4, received 1
            position 4: open, margin 6, received 0
            position 5: open, margin 6, received 0
            position 6: open, margin 6, received 0
            position 7: fixed, 1 */
#include "yendrufal.h"
#include <stdio.h>

static const uint64_t rows[3] = {0x0f, 0x33, 0x55};
static const uint64_t mask = 0x80;
static const int16_t samples[8] = {-3, -2, 4, -1, 5, 6, -1, 7};

/* Rooms for this plate: n is 8 and m is 3. */
static yendrufal_plate plate;
static int32_t metrics[YENDRUFAL_METRICS(3)];
static uint64_t decisions[YENDRUFAL_DECISIONS(8, 3)];
static const yendrufal_rooms rooms = {metrics, YENDRUFAL_METRICS(3), decisions, YENDRUFAL_DECISIONS(8, 3)};

/* Says of every position of a block how firmly it was received. */
static yendrufal_reply tell_each(const int16_t *block, size_t length) {
    yendrufal_reply reply = {YENDRUFAL_DONE, 0};
    for (uint64_t position = 0; position < plate.words[YENDRUFAL_PLATE_N]; position++) {
        yendrufal_reading reading;
        reply = yendrufal_plate_firmness(&plate, block, length, position, &rooms, &reading);
        if (reply.number != YENDRUFAL_DONE) return reply;
        printf("position %d: ", (int)position);
        if (reading.fixed)
            printf("fixed, %d\n", (int)reading.value);
        else if (reading.value == 0)
            printf("open, margin 0, which decides nothing\n");
        else
            printf("open, margin %d, received %d\n", (int)reading.value, reading.value < 0);
    }
    return reply;
}

int main(void) {
    yendrufal_reply reply = yendrufal_plate_prepare(8, YENDRUFAL_KIND_G, rows, 3, mask, &plate);
    if (reply.number == YENDRUFAL_DONE) reply = tell_each(samples, 8);
    if (reply.number != YENDRUFAL_DONE) printf("refused: %s\n", yendrufal_refusal_words(reply.number));
    return reply.number != YENDRUFAL_DONE;
}
