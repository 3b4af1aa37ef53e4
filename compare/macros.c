/* Tells what the macros of the header are; compare/macros makes names.h of those without arguments. */
#include "yendrufal.h"
#include <stdio.h>

enum { WIDEST = 12, LONGEST = 64, LINES = 8192, BRANCH_LINES = 1024 };

#define TELL(name) printf("%s %zu\n", #name, (size_t)(name));

int main(void) {
#include "names.h"
    for (int m = 0; m <= WIDEST; m++) {
        printf("YENDRUFAL_METRICS %d %zu\n", m, YENDRUFAL_METRICS(m));
        for (int n = 1; n <= LONGEST; n++)
            printf("YENDRUFAL_DECISIONS %d %d %zu\n", n, m, YENDRUFAL_DECISIONS(n, m));
    }
    for (int lines = 0; lines < LINES; lines++)
        printf("YENDRUFAL_LISTING %d %zu\n", lines, YENDRUFAL_LISTING(lines));
#ifdef YENDRUFAL_WEIGHT_WORKING
    for (int m = 0; m <= WIDEST; m++)
        printf("YENDRUFAL_WEIGHT_WORKING %d %zu\n", m, YENDRUFAL_WEIGHT_WORKING(m));
#endif
#ifdef YENDRUFAL_JUDGING
    for (int lines = 0; lines <= BRANCH_LINES; lines++)
        printf("YENDRUFAL_JUDGING %d %zu\n", lines, YENDRUFAL_JUDGING(lines));
#endif
    return 0;
}
