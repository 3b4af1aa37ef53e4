/* The C interface in ten lines, as README.md shows it.

   Build:   gcc -O2 -Iinclude examples/short.c target/staticlib/libexports.a -o target/short
   Prints:  done, word 0x0f, metric 19 */
#include "yendrufal.h"
#include <stdio.h>

int main(void) {
    const uint64_t rows[4] = {0x0f, 0x5a, 0x3c, 0xf0};       /* position 0 is the lowest bit */
    const int16_t samples[8] = {-3, -2, 4, -1, 5, 6, -1, 7}; /* positive favours bit 0 */
    int32_t metrics[YENDRUFAL_METRICS(3)];
    uint64_t decisions[YENDRUFAL_DECISIONS(8, 3)];
    const yendrufal_rooms rooms = {metrics, YENDRUFAL_METRICS(3), decisions, YENDRUFAL_DECISIONS(8, 3)};
    yendrufal_plate plate;
    yendrufal_answer answer = {0, 0, 0, 0};
    yendrufal_reply reply = yendrufal_plate_prepare(8, YENDRUFAL_KIND_G, rows, 4, 0, &plate);
    if (reply.number == YENDRUFAL_DONE) reply = yendrufal_plate_decode(&plate, samples, 8, &rooms, &answer);
    printf("%s, word 0x%02x, metric %d\n", yendrufal_refusal_words(reply.number), (unsigned)answer.word, (int)answer.metric);
}
