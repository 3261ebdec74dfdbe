/*
 * How many patterns the search for left seeds looks at, over all readings of each log. A line a log: its kind, n and the pairs of a
 * reading and a pattern.
 */
#include "logs.h"
#include "plain.h"

#include <stdio.h>

enum { LONGEST = 4096 };

int main(void)
{
    static uint8_t x[LONGEST];
    static uint16_t best[LONGEST], count[LONGEST];
    for (int kind = 0; kind < KINDS; kind++)
        for (size_t n = LONGEST / 8; n <= LONGEST; n *= 2) {
            make_log(kind, x, n);
            pairs = 0;
            c_left_seeds(x, n, best, count);
            printf("%s %zu %zu\n", kind_names[kind], n, pairs);
        }
    return 0;
}
