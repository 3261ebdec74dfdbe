/*
 * Runs every call of every implementation that has it, on every log that it is measured on:
 *   measure check   compares their tables; status 1 where two differ
 *   measure time    prints the median time of a call in nanoseconds
 *   measure count   under callgrind: one dump a call
 * A line or a dump is named: implementation, call, kind of log, n.
 */
#include "finder.h"
#include "logs.h"
#include "plain.h"

#include <stdio.h>
#include <stdlib.h>
#include <string.h>
#include <time.h>
#include <valgrind/callgrind.h>

enum { COLUMNS = 9, CALLS = 9, IMPLEMENTATIONS = 3, REPEATS = 301 };

/* border, prefix, cover, best, count; then best and count of the left covers, and of the left seeds */
typedef struct {
    uint16_t column[COLUMNS][FINDER_LONGEST];
    uint32_t total, ceiling;
} tables;

typedef void call(const uint8_t *x, size_t n, tables *t);

/* A refusal leaves the tables as they are, and the comparison finds it. */
static void proved_border(const uint8_t *x, size_t n, tables *t)
{
    finder_border_table(x, n, t->column[0], n);
}

static void proved_prefix(const uint8_t *x, size_t n, tables *t)
{
    finder_prefix_table(x, n, t->column[1], n);
}

static void proved_cover(const uint8_t *x, size_t n, tables *t)
{
    finder_cover_table(x, n, t->column[2], n);
}

static void proved_enhanced(const uint8_t *x, size_t n, tables *t)
{
    t->total = finder_enhanced_table(x, n, t->column[3], n, t->column[4], n).total;
}

static void proved_window(const uint8_t *x, size_t n, tables *t)
{
    t->total = finder_window(x, n, 0, n, t->column[0], n, t->column[1], n, t->column[2], n, t->column[3], n, t->column[4], n).total;
}

/* The pattern's length is Best of the last row, also where there is none. */
static void proved_pattern(const uint8_t *x, size_t n, tables *t)
{
    t->column[3][n - 1] = finder_best_pattern(x, n).len;
}

static void proved_ceiling(const uint8_t *x, size_t n, tables *t)
{
    finder_held h = finder_ceiling(x, n);
    t->ceiling = h.ceiling + (h.held ? HELD : 0);
}

static void proved_left_covers(const uint8_t *x, size_t n, tables *t)
{
    finder_left_covers(x, n, t->column[5], n, t->column[6], n);
}

static void proved_left_seeds(const uint8_t *x, size_t n, tables *t)
{
    finder_left_seeds(x, n, t->column[7], n, t->column[8], n);
}

#define CALLS_OF(language)                                                                                                         \
    static void plain_##language##_border(const uint8_t *x, size_t n, tables *t) { language##_border(x, n, t->column[0]); }        \
    static void plain_##language##_prefix(const uint8_t *x, size_t n, tables *t) { language##_prefix(x, n, t->column[1]); }        \
    static void plain_##language##_cover(const uint8_t *x, size_t n, tables *t) { language##_cover(x, n, t->column[2]); }          \
    static void plain_##language##_enhanced(const uint8_t *x, size_t n, tables *t)                                                 \
    {                                                                                                                              \
        t->total = language##_enhanced(x, n, t->column[3], t->column[4]);                                                          \
    }                                                                                                                              \
    static void plain_##language##_window(const uint8_t *x, size_t n, tables *t)                                                   \
    {                                                                                                                              \
        t->total = language##_all(x, n, t->column[0], t->column[1], t->column[2], t->column[3], t->column[4]);                     \
    }                                                                                                                              \
    static void plain_##language##_ceiling(const uint8_t *x, size_t n, tables *t) { t->ceiling = language##_ceiling(x, n); }       \
    static void plain_##language##_left_covers(const uint8_t *x, size_t n, tables *t)                                              \
    {                                                                                                                              \
        language##_left_covers(x, n, t->column[5], t->column[6]);                                                                  \
    }                                                                                                                              \
    static void plain_##language##_left_seeds(const uint8_t *x, size_t n, tables *t)                                               \
    {                                                                                                                              \
        language##_left_seeds(x, n, t->column[7], t->column[8]);                                                                   \
    }

CALLS_OF(c)
CALLS_OF(rust)

static const struct {
    const char *name;
    call *calls[CALLS];
} implementations[IMPLEMENTATIONS] = {
    {"proved",
     {proved_border, proved_prefix, proved_cover, proved_enhanced, proved_window, proved_pattern, proved_ceiling, proved_left_covers,
      proved_left_seeds}},
    {"c",
     {plain_c_border, plain_c_prefix, plain_c_cover, plain_c_enhanced, plain_c_window, NULL, plain_c_ceiling, plain_c_left_covers,
      plain_c_left_seeds}},
    {"rust",
     {plain_rust_border, plain_rust_prefix, plain_rust_cover, plain_rust_enhanced, plain_rust_window, NULL, plain_rust_ceiling,
      plain_rust_left_covers, plain_rust_left_seeds}},
};

/* The columns that a call writes, and whether only their last row; its totals apart; the kinds of log that it is measured on. */
static const struct {
    const char *name;
    int first, last, has_total, last_row, has_ceiling, kinds;
} calls[CALLS] = {
    {"border", 0, 0, 0, 0, 0, COMMON},
    {"prefix", 1, 1, 0, 0, 0, COMMON},
    {"cover", 2, 2, 0, 0, 0, COMMON},
    {"enhanced", 3, 4, 1, 0, 0, KINDS}, /* the left covers are told in it */
    {"window", 0, 4, 1, 0, 0, COMMON},
    {"pattern", 3, 3, 0, 1, 0, COMMON},
    {"ceiling", 0, -1, 0, 0, 1, COMMON},
    {"left_covers", 5, 6, 0, 0, 0, KINDS},
    {"left_seeds", 7, 8, 0, 0, 0, KINDS},
};

/* What is done with each call on each log. */
typedef void visit(const char *name, int implementation, int which, const uint8_t *x, size_t n);

/* The plain C sets the standard for all that the call writes. */
static void check(const char *name, int implementation, int which, const uint8_t *x, size_t n)
{
    static tables wanted, made;
    plain_c_window(x, n, &wanted);
    plain_c_ceiling(x, n, &wanted);
    plain_c_left_covers(x, n, &wanted);
    plain_c_left_seeds(x, n, &wanted);
    memset(&made, 0xff, sizeof made);
    implementations[implementation].calls[which](x, n, &made);
    int same = (!calls[which].has_total || made.total == wanted.total) && (!calls[which].has_ceiling || made.ceiling == wanted.ceiling);
    size_t from = calls[which].last_row ? n - 1 : 0;
    for (int c = calls[which].first; c <= calls[which].last; c++)
        same = same && memcmp(made.column[c] + from, wanted.column[c] + from, (n - from) * sizeof **made.column) == 0;
    if (!same) {
        fprintf(stderr, "measure: %s differs from plain C\n", name);
        exit(1);
    }
}

static int by_size(const void *a, const void *b)
{
    long left = *(const long *)a, right = *(const long *)b;
    return (left > right) - (left < right);
}

static void time_it(const char *name, int implementation, int which, const uint8_t *x, size_t n)
{
    static tables made;
    long taken[REPEATS];
    for (int k = 0; k < REPEATS; k++) {
        struct timespec start, end;
        clock_gettime(CLOCK_MONOTONIC, &start);
        implementations[implementation].calls[which](x, n, &made);
        clock_gettime(CLOCK_MONOTONIC, &end);
        taken[k] = (end.tv_sec - start.tv_sec) * 1000000000L + end.tv_nsec - start.tv_nsec;
    }
    qsort(taken, REPEATS, sizeof *taken, by_size);
    printf("%s %ld\n", name, taken[REPEATS / 2]);
}

/* callgrind counts inside the implementation's own function only, so that nothing of this program is in the dump. */
static void count(const char *name, int implementation, int which, const uint8_t *x, size_t n)
{
    static tables made;
    implementations[implementation].calls[which](x, n, &made);
    CALLGRIND_DUMP_STATS_AT(name);
}

static void each(visit *v)
{
    static uint8_t x[FINDER_LONGEST];
    for (int kind = 0; kind < KINDS; kind++)
        for (size_t n = FINDER_LONGEST / 8; n <= FINDER_LONGEST; n *= 2) {
            make_log(kind, x, n);
            for (int which = 0; which < CALLS; which++)
                for (int k = 0; k < IMPLEMENTATIONS; k++) {
                    if (!implementations[k].calls[which] || kind >= calls[which].kinds)
                        continue;
                    char name[64];
                    snprintf(name, sizeof name, "%s %s %s %zu", implementations[k].name, calls[which].name, kind_names[kind], n);
                    v(name, k, which, x, n);
                }
        }
}

int main(int words, char **word)
{
    static const struct {
        const char *name;
        visit *visit;
    } modes[] = {{"check", check}, {"time", time_it}, {"count", count}};
    for (size_t k = 0; words == 2 && k < sizeof modes / sizeof *modes; k++)
        if (strcmp(word[1], modes[k].name) == 0) {
            each(modes[k].visit);
            return 0;
        }
    fprintf(stderr, "usage: measure check | time | count\n");
    return 2;
}
