/* A receiver with single-precision values: the paper's block in halves, one value erased, becomes levels, which are decoded.

   Build:   gcc -O2 -Iinclude examples/levels.c target/staticlib/libexports.a -o target/levels
   Prints:  done, word 0x0f, metric 18
            a heard value is not a number */
#include "yendrufal.h"
#include <stdio.h>

static const uint64_t rows[4] = {0x0f, 0x5a, 0x3c, 0xf0};

/* Rooms for this plate: n is 8 and m is 3. */
static yendrufal_plate plate;
static int32_t metrics[YENDRUFAL_METRICS(3)];
static uint64_t decisions[YENDRUFAL_DECISIONS(8, 3)];
static const yendrufal_rooms rooms = {metrics, YENDRUFAL_METRICS(3), decisions, YENDRUFAL_DECISIONS(8, 3)};

/* The best word of 8 values, of which those marked are erased; a level is half a unit. */
static uint64_t receive(const float *values, uint64_t erased, yendrufal_answer *answer) {
    int16_t samples[8];
    uint64_t place = 0;
    const uint64_t number = yendrufal_levels(8, 0.5f, 127, values, 8, erased, samples, 8, &place, 1);
    if (number != YENDRUFAL_DONE) return number;
    return yendrufal_plate_decode(&plate, samples, 8, &rooms, answer).number;
}

int main(void) {
    const float zero = 0.0f, values[8] = {-1.6f, -1.0f, 2.4f, zero / zero, 2.5f, 3.0f, -0.5f, 3.5f};
    yendrufal_answer answer = {0, 0, 0, 0};
    if (yendrufal_plate_prepare(8, YENDRUFAL_KIND_G, rows, 4, 0, &plate).number != YENDRUFAL_DONE) return 1;
    const uint64_t number = receive(values, 1 << 3, &answer);
    printf("%s, word 0x%02x, metric %d\n", yendrufal_refusal_words(number), (unsigned)answer.word, (int)answer.metric);
    printf("%s\n", yendrufal_refusal_words(receive(values, 0, &answer)));
    return number != YENDRUFAL_DONE;
}
