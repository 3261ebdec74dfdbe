#include "finder.h"
#include <stdio.h>

int main(void)
{
    const uint8_t log[10] = {4, 20, 4, 20, 4, 4, 20, 4, 20, 4};
    uint16_t border[10];
    if (finder_border_table(log, 10, border, 10).number != 0)
        return 1;
    printf("border table:");
    for (int i = 0; i < 10; i++)
        printf(" %d", border[i]);
    printf("\nbest pattern: the first %zu readings\n", finder_best_pattern(log, 10).len);
    finder_held head = finder_ceiling(log, 10);
    printf("at the ceiling: %d readings, %s now\n", head.ceiling, head.held ? "held" : "not held");
    return 0;
}
