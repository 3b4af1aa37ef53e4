/* How large the working rooms are, in bytes, for plates of length 64 by m, the largest profile entry.

   Build:   gcc -O2 -Iinclude examples/rooms.c target/staticlib/libexports.a -o target/rooms
   Prints:  a plate: 1056 bytes
            m 0: metrics 8 bytes, decisions 512 bytes
            m 3: metrics 64 bytes, decisions 512 bytes
            m 6: metrics 512 bytes, decisions 512 bytes
            m 9: metrics 4096 bytes, decisions 4096 bytes
            m 12: metrics 32768 bytes, decisions 32768 bytes
            every plate: metrics 32768 bytes, decisions 32768 bytes */
#include "yendrufal.h"
#include <stdio.h>

int main(void) {
    printf("a plate: %zu bytes\n", sizeof(yendrufal_plate));
    for (int m = 0; m <= 12; m += 3)
        printf("m %d: metrics %zu bytes, decisions %zu bytes\n", m, YENDRUFAL_METRICS(m) * sizeof(int32_t),
               YENDRUFAL_DECISIONS(64, m) * sizeof(uint64_t));
    printf("every plate: metrics %zu bytes, decisions %zu bytes\n", YENDRUFAL_METRICS_MOST * sizeof(int32_t),
           YENDRUFAL_DECISIONS_MOST * sizeof(uint64_t));
    return 0;
}
