/*
 * How much stack each call takes: it is run on a painted stack of its own, on the longest random log, and the paint that it
 * wore off is counted. A line a call: its name, the bytes, and how many arrays of the log's length they are. A call that takes
 * more arrays than it is allowed, and a quarter of one for all else, is named, and the program fails.
 */
#include "finder.h"
#include "logs.h"

#include <pthread.h>
#include <stdio.h>
#include <stdlib.h>
#include <string.h>

enum { SIZE = 1 << 20, PAINT = 0xA5, ARRAY = FINDER_LONGEST * sizeof(uint16_t) };

static uint8_t x[FINDER_LONGEST];
static uint16_t t[5][FINDER_LONGEST];

static void nothing(void) {}
static void border_table(void) { finder_border_table(x, FINDER_LONGEST, t[0], FINDER_LONGEST); }
static void prefix_table(void) { finder_prefix_table(x, FINDER_LONGEST, t[0], FINDER_LONGEST); }
static void cover_table(void) { finder_cover_table(x, FINDER_LONGEST, t[0], FINDER_LONGEST); }
static void enhanced_table(void) { finder_enhanced_table(x, FINDER_LONGEST, t[0], FINDER_LONGEST, t[1], FINDER_LONGEST); }
static void left_covers(void) { finder_left_covers(x, FINDER_LONGEST, t[0], FINDER_LONGEST, t[1], FINDER_LONGEST); }
static void left_seeds(void) { finder_left_seeds(x, FINDER_LONGEST, t[0], FINDER_LONGEST, t[1], FINDER_LONGEST); }
static void normal_form(void) { finder_normal_form(x, FINDER_LONGEST, FINDER_LONGEST); }
static void breakdown(void) { finder_breakdown(x, FINDER_LONGEST); }
static void cover_list(void) { finder_cover_list(x, FINDER_LONGEST, t[0], FINDER_LONGEST); }
static void cover_test(void) { finder_cover_test(x, FINDER_LONGEST, FINDER_LONGEST, 64); }
static void weighed_list(void) { finder_weighed_list(x, FINDER_LONGEST, FINDER_LONGEST); }
static void best_pattern(void) { finder_best_pattern(x, FINDER_LONGEST); }
static void ceiling(void) { finder_ceiling(x, FINDER_LONGEST); }
static void window(void)
{
    finder_window(x, FINDER_LONGEST, 0, FINDER_LONGEST, t[0], FINDER_LONGEST, t[1], FINDER_LONGEST, t[2], FINDER_LONGEST, t[3],
                  FINDER_LONGEST, t[4], FINDER_LONGEST);
}

static void *run(void *call)
{
    (*(void (**)(void))call)();
    return NULL;
}

static size_t worn_by(void (*call)(void))
{
    uint8_t *stack = aligned_alloc(4096, SIZE);
    pthread_attr_t attributes;
    pthread_t thread;
    size_t left = 0;
    memset(stack, PAINT, SIZE);
    pthread_attr_init(&attributes);
    if (pthread_attr_setstack(&attributes, stack, SIZE) || pthread_create(&thread, &attributes, run, &call) || pthread_join(thread, NULL))
        exit(1);
    while (left < SIZE && stack[left] == PAINT)
        left++;
    free(stack);
    return SIZE - left;
}

int main(void)
{
    static const struct { const char *name; void (*call)(void); size_t arrays; } calls[] = {
        {"border_table", border_table, 0}, {"prefix_table", prefix_table, 0}, {"cover_table", cover_table, 2},
        {"enhanced_table", enhanced_table, 3}, {"left_covers", left_covers, 3}, {"left_seeds", left_seeds, 6}, {"window", window, 2},
        {"normal_form", normal_form, 1}, {"breakdown", breakdown, 1}, {"cover_list", cover_list, 3}, {"cover_test", cover_test, 1},
        {"weighed_list", weighed_list, 4}, {"best_pattern", best_pattern, 5}, {"ceiling", ceiling, 0}};
    size_t idle = worn_by(nothing);
    int failed = 0;
    make_log(RANDOM, x, FINDER_LONGEST);
    for (size_t k = 0; k < sizeof calls / sizeof *calls; k++) {
        size_t taken = worn_by(calls[k].call) - idle;
        printf("%s %zu %.2f\n", calls[k].name, taken, (double)taken / ARRAY);
        if (taken > calls[k].arrays * ARRAY + ARRAY / 4) {
            fprintf(stderr, "stack.c: %s takes more than %zu arrays of the log's length\n", calls[k].name, calls[k].arrays);
            failed = 1;
        }
    }
    return failed;
}
