/* Every call, compared with its definition on many logs; the numbers around each lent table must stay. */
#include "finder.h"
#include "logs.h"

#include <stdio.h>
#include <stdlib.h>
#include <string.h>

/* On failure: the line, and the log that was being judged. */
static const uint8_t *judged;
static size_t judged_len;

static void check(int holds, int line)
{
    if (holds)
        return;
    fprintf(stderr, "test_finder.c:%d fails on %zu bytes:", line, judged_len);
    for (size_t p = 0; p < judged_len; p++)
        fprintf(stderr, " %d", judged[p]);
    fputc('\n', stderr);
    exit(1);
}

#define CHECK(condition) check(condition, __LINE__)

/* Marsaglia's xorshift. */
static size_t below(size_t bound)
{
    static uint64_t state = 88172645463325252u;
    state ^= state << 13;
    state ^= state >> 7;
    state ^= state << 17;
    return (size_t)(state >> 11) % bound;
}

/* The definitions. */

static int ends(const uint8_t *x, size_t q, size_t e)
{
    return q <= e && memcmp(x, x + e - q, q) == 0;
}

/* Marks what the occurrences of the pattern of length q lie on, and answers how many there are. */
static size_t mark(const uint8_t *x, size_t i, size_t q, uint8_t *inside)
{
    size_t occurrences = 0;
    for (size_t e = q; e <= i; e++)
        if (ends(x, q, e)) {
            memset(inside + e - q, 1, q);
            occurrences++;
        }
    return occurrences;
}

static size_t marked(const uint8_t *inside, size_t i)
{
    size_t count = 0;
    for (size_t p = 0; p < i; p++)
        count += inside[p];
    return count;
}

static size_t covered(const uint8_t *x, size_t i, size_t q)
{
    uint8_t inside[FINDER_LONGEST] = {0};
    mark(x, i, q, inside);
    return marked(inside, i);
}

static size_t border(const uint8_t *x, size_t i)
{
    size_t q = i - 1;
    while (!ends(x, q, i))
        q--;
    return q;
}

static size_t prefix(const uint8_t *x, size_t n, size_t i)
{
    size_t m = 0;
    while (i + m <= n && x[m] == x[i - 1 + m])
        m++;
    return m;
}

/* Only a border ends at i, where the last position has to be covered. */
static size_t cover(const uint8_t *x, size_t i)
{
    size_t q = i - 1;
    while (q > 0 && !(ends(x, q, i) && covered(x, i, q) == i))
        q--;
    return q;
}

typedef struct {
    size_t best, count;
} enhanced;

/* Patterns are tried from the shortest on: a longer one has to cover more to be taken. */
static void try_pattern(enhanced *r, size_t q, size_t count)
{
    if (count > r->count) {
        r->best = q;
        r->count = count;
    }
}

static enhanced weigh(const uint8_t *x, size_t i)
{
    enhanced r = {0, 0};
    for (size_t q = 1; q < i; q++)
        if (ends(x, q, i))
            try_pattern(&r, q, covered(x, i, q));
    return r;
}

/* Marks what the starts of the pattern of length q that end at i lie on. */
static void mark_starts(const uint8_t *x, size_t i, size_t q, uint8_t *inside)
{
    for (size_t m = 1; m < q; m++)
        if (ends(x, m, i))
            memset(inside + i - m, 1, m);
}

typedef struct {
    enhanced cover, seed;
} lefts;

/* Where a pattern does not occur twice, no longer one does. */
static lefts weigh_left(const uint8_t *x, size_t i)
{
    lefts r = {{0, 0}, {0, 0}};
    for (size_t q = 1; q < i; q++) {
        uint8_t inside[FINDER_LONGEST] = {0};
        if (mark(x, i, q, inside) < 2)
            break;
        try_pattern(&r.cover, q, marked(inside, i));
        mark_starts(x, i, q, inside);
        try_pattern(&r.seed, q, marked(inside, i));
    }
    return r;
}

static finder_weighed weighed(const uint8_t *x, size_t i)
{
    finder_weighed r;
    memset(&r, 0, sizeof r);
    for (size_t q = i - 1; q > 0; q--)
        if (ends(x, q, i) && cover(x, q) == 0)
            r.lens[r.used++] = (uint16_t)q;
    while ((size_t)2 << r.limit <= i)
        r.limit++;
    return r;
}

static finder_part normal(const uint8_t *x, size_t i)
{
    size_t k1 = i - border(x, i);
    finder_part r = {(uint16_t)i, (uint16_t)k1, (uint16_t)(i % k1), (uint16_t)(i / k1)};
    return r;
}

/* The last readings that are at the ceiling without a break. */
static size_t last_run(const uint8_t *x, size_t n)
{
    size_t run = 0;
    while (run < n && x[n - 1 - run] == 20)
        run++;
    return run;
}

/* The refusals. */

static unsigned log_no(size_t n)
{
    return n == 0 ? FINDER_EMPTY : n > FINDER_LONGEST ? FINDER_LONG : 0;
}

static unsigned table_no(size_t n, size_t room)
{
    return log_no(n) ? log_no(n) : room < n ? FINDER_SHORT : 0;
}

static unsigned prefix_no(size_t n, size_t i, size_t q)
{
    return log_no(n) ? log_no(n) : i == 0 || i > n || q == 0 || q > i ? FINDER_PLACE : 0;
}

static unsigned window_no(size_t n, size_t a, size_t m, size_t room)
{
    return log_no(n) ? log_no(n) : m == 0 || a > n || m > n - a ? FINDER_PLACE : room < a + m ? FINDER_SHORT : 0;
}

static unsigned file_no(const uint8_t *f, size_t len)
{
    if (len < 3)
        return FINDER_FILE;
    if (f[0] != 1)
        return FINDER_VERSION;
    size_t n = f[1] * 256u + f[2];
    if (log_no(n) || len != 3 + n)
        return log_no(n) ? log_no(n) : FINDER_FILE;
    for (size_t p = 3; p < len; p++)
        if (f[p] > 20)
            return FINDER_SYMBOL;
    return 0;
}

/* A table with other numbers before and after it. */

enum { GUARD = 16, SPACE = FINDER_LONGEST + 8 + 2 * GUARD };

typedef struct {
    size_t size;
    uint16_t before[SPACE], now[SPACE];
} lent;

static uint16_t *lend(lent *t, size_t room)
{
    t->size = room + 2 * GUARD;
    for (size_t p = 0; p < t->size; p++)
        t->before[p] = t->now[p] = (uint16_t)below(65536);
    return t->now + GUARD;
}

/* The column stands after the first `skipped` entries; every other number is as it was. */
static int holds(lent *t, size_t skipped, const uint16_t *column, size_t rows)
{
    memcpy(t->before + GUARD + skipped, column, rows * sizeof *column);
    return memcmp(t->before, t->now, t->size * sizeof *t->now) == 0;
}

/* The five columns of a log and its weighed total, and beside them those of the left covers and the left seeds. */

enum { BORDER, PREFIX, COVER, BEST, COUNT, COLUMNS, LEFT_COVER = COLUMNS, LEFT_COVER_COUNT, LEFT_SEED, LEFT_SEED_COUNT, WITH_LEFT };

typedef struct {
    uint16_t column[WITH_LEFT][FINDER_LONGEST];
    uint32_t total;
} rows;

static void make_rows(rows *r, const uint8_t *x, size_t n)
{
    r->total = 0;
    for (size_t i = 1; i <= n; i++) {
        enhanced e = weigh(x, i);
        lefts l = weigh_left(x, i);
        size_t row[WITH_LEFT] = {border(x, i), prefix(x, n, i), cover(x, i), e.best, e.count,
                                 l.cover.best, l.cover.count, l.seed.best, l.seed.count};
        for (int c = 0; c < WITH_LEFT; c++)
            r->column[c][i - 1] = (uint16_t)row[c];
        r->total += weighed(x, i).used;
    }
}

/* The checks. Each takes the rows that the call has to make; a refused call makes none. */

static void check_left(const uint8_t *x, size_t n, size_t bn, size_t cn, const rows *r)
{
    static lent best, count;
    unsigned no = table_no(n, bn < cn ? bn : cn);
    size_t written = no ? 0 : n;
    for (int c = LEFT_COVER; c < WITH_LEFT; c += 2) {
        uint16_t *b = lend(&best, bn), *k = lend(&count, cn);
        finder_written w = c == LEFT_COVER ? finder_left_covers(x, n, b, bn, k, cn) : finder_left_seeds(x, n, b, bn, k, cn);
        CHECK(w.number == no);
        CHECK(holds(&best, 0, r->column[c], written) && holds(&count, 0, r->column[c + 1], written));
    }
}

static void check_tables(const uint8_t *x, size_t n, size_t room, const rows *r)
{
    static finder_written (*const calls[3])(const uint8_t *, size_t, uint16_t *, size_t) = {finder_border_table, finder_prefix_table,
                                                                                             finder_cover_table};
    static lent t, other;
    unsigned no = table_no(n, room);
    size_t written = no ? 0 : n;
    for (int c = 0; c < 3; c++) {
        CHECK(calls[c](x, n, lend(&t, room), room).number == no);
        CHECK(holds(&t, 0, r->column[c], written));
    }
    for (int swapped = 0; swapped < 2; swapped++) {
        size_t bn = swapped ? n + 2 : room, cn = swapped ? room : n + 2;
        finder_weighing w = finder_enhanced_table(x, n, lend(&t, bn), bn, lend(&other, cn), cn);
        CHECK(w.number == no && w.total == (no ? 0 : r->total));
        CHECK(holds(&t, 0, r->column[BEST], written) && holds(&other, 0, r->column[COUNT], written));
        check_left(x, n, bn, cn, r);
    }
}

/* One of the five tables has `room` entries, the others n. */
static void check_window(const uint8_t *x, size_t n, size_t a, size_t m, size_t room, const rows *r)
{
    static lent t[COLUMNS];
    unsigned no = window_no(n, a, m, room);
    for (int narrow = 0; narrow < COLUMNS; narrow++) {
        size_t rn[COLUMNS] = {n, n, n, n, n};
        uint16_t *p[COLUMNS];
        rn[narrow] = room;
        for (int c = 0; c < COLUMNS; c++)
            p[c] = lend(&t[c], rn[c]);
        finder_weighing w = finder_window(x, n, a, m, p[0], rn[0], p[1], rn[1], p[2], rn[2], p[3], rn[3], p[4], rn[4]);
        CHECK(w.number == no && w.total == (no ? 0 : r->total));
        for (int c = 0; c < COLUMNS; c++)
            CHECK(holds(&t[c], no ? 0 : a, r->column[c], no ? 0 : m));
    }
}

static void check_cover_list(const uint8_t *x, size_t n, size_t room)
{
    static lent t;
    uint16_t list[FINDER_LONGEST];
    unsigned no = table_no(n, room), used = 0;
    for (size_t q = 1; q <= n && !no; q++)
        if (covered(x, n, q) == n)
            list[used++] = (uint16_t)q;
    finder_listed l = finder_cover_list(x, n, lend(&t, room), room);
    CHECK(l.number == no && l.used == used);
    CHECK(holds(&t, 0, list, used));
}

static void check_prefix(const uint8_t *x, size_t n, size_t i)
{
    unsigned no = prefix_no(n, i, 1);
    finder_part part = {0, 0, 0, 0};
    finder_weighed list;
    memset(&list, 0, sizeof list);
    if (!no) {
        part = normal(x, i);
        list = weighed(x, i);
    }
    finder_normal f = finder_normal_form(x, n, i);
    CHECK(f.number == no && f.k1 == part.k1 && f.k2 == part.k2 && f.k == part.k);
    finder_weighed w = finder_weighed_list(x, n, i);
    CHECK(w.number == no && w.used == list.used && w.limit == list.limit);
    CHECK(memcmp(w.lens, list.lens, sizeof list.lens) == 0);
}

static void check_cover_test(const uint8_t *x, size_t n, size_t i, size_t q)
{
    unsigned no = prefix_no(n, i, q);
    finder_covers c = finder_cover_test(x, n, i, q);
    CHECK(c.number == no && c.covers == (!no && covered(x, i, q) == i));
}

static void check_breakdown(const uint8_t *x, size_t n)
{
    finder_part parts[FINDER_BREAKDOWN_PLACES];
    unsigned used = 0;
    memset(parts, 0, sizeof parts);
    for (size_t i = log_no(n) ? 0 : n; i > 0;) {
        finder_part part = parts[used++] = normal(x, i);
        i = part.k2 > 0 ? part.k2 : part.k > 1 ? part.k1 : 0;
    }
    finder_parts b = finder_breakdown(x, n);
    CHECK(b.number == log_no(n) && b.used == used);
    CHECK(memcmp(b.parts, parts, sizeof parts) == 0);
}

static void check_best_pattern(const uint8_t *x, size_t n)
{
    size_t best = log_no(n) ? 0 : weigh(x, n).best;
    finder_span s = finder_best_pattern(x, n);
    CHECK(s.number == (log_no(n) ? log_no(n) : best == 0 ? FINDER_NONE : 0));
    CHECK(s.start == 0 && s.len == best);
}

static void check_ceiling(const uint8_t *x, size_t n)
{
    unsigned no = log_no(n), ceiling = 0;
    for (size_t p = 0; p < n && !no; p++)
        ceiling += x[p] == 20;
    judged = x;
    judged_len = n;
    finder_held h = finder_ceiling(x, n);
    CHECK(h.number == no && h.ceiling == ceiling);
    CHECK(h.held == (!no && (last_run(x, n) >= 60 || last_run(x, n) == n)));
}

static void check_file(const uint8_t *f, size_t len)
{
    unsigned no = file_no(f, len);
    judged = f;
    judged_len = len;
    finder_span s = finder_file(f, len);
    CHECK(s.number == no && s.start == (no ? 0 : 3) && s.len == (no ? 0 : len - 3));
}

static void check_log(const uint8_t *x, size_t n)
{
    static rows r;
    judged = x;
    judged_len = n;
    make_rows(&r, x, n);
    for (size_t room = n - 1; room <= n + 1; room++) {
        check_tables(x, n, room, &r);
        check_cover_list(x, n, room);
    }
    check_breakdown(x, n);
    check_best_pattern(x, n);
    check_ceiling(x, n);
    for (size_t i = 0; i <= n + 1; i++) {
        check_prefix(x, n, i);
        check_cover_test(x, n, i, below(n + 1));
        check_cover_test(x, n, i, i);
        check_cover_test(x, n, n, i);
    }
    size_t a = below(n), m = 1 + below(n - a);
    make_rows(&r, x + a, m);
    for (size_t room = a + m - 1; room <= n + 1; room++)
        check_window(x, n, a, m, room, &r);
    check_window(x, n, a, n - a + 1, n, &r);
    check_window(x, n, a, 0, n, &r);
    check_window(x, n, a, SIZE_MAX - a + 1, n, &r);
    check_window(x, n, SIZE_MAX, m, n, &r);
}

static void small_logs(size_t letters, size_t longest)
{
    uint8_t x[16] = {0};
    size_t logs = 1;
    for (size_t n = 1; n <= longest; n++) {
        logs *= letters;
        for (size_t code = 0; code < logs; code++) {
            size_t rest = code;
            for (size_t p = 0; p < n; p++, rest /= letters)
                x[p] = (uint8_t)(rest % letters * 127);
            check_log(x, n);
        }
    }
}

static void longer_logs(void)
{
    uint8_t x[128];
    for (int kind = 0; kind < KINDS; kind++)
        for (size_t n = 12; n <= sizeof x; n += 29) {
            make_log(kind, x, n);
            check_log(x, n);
            x[below(n)] ^= 1;
            check_log(x, n);
        }
}

/* The first and the last length that are judged, and the refused ones beside them. */
static void lengths(void)
{
    static const size_t tried[] = {0, 1, FINDER_LONGEST, FINDER_LONGEST + 1};
    static uint8_t x[FINDER_LONGEST + 1];
    static rows r;
    make_log(RANDOM, x, sizeof x);
    judged = x;
    for (size_t k = 0; k < sizeof tried / sizeof *tried; k++) {
        size_t n = judged_len = tried[k];
        if (log_no(n) == 0)
            make_rows(&r, x, n);
        check_tables(x, n, n, &r);
        check_window(x, n, 0, n, n, &r);
        check_cover_list(x, n, n);
        check_breakdown(x, n);
        check_best_pattern(x, n);
        check_ceiling(x, n);
        check_prefix(x, n, n);
        check_cover_test(x, n, n, 1);
    }
}

/* At the ceiling but for one reading of any value, wherever it stands. Readings at the ceiling lie before and after the log too. */
static void ceilings(void)
{
    enum { MOST = 125 };
    uint8_t shelf[3 * MOST], *x = shelf + MOST;
    memset(shelf, 20, sizeof shelf);
    for (size_t n = 1; n <= MOST; n++)
        for (size_t p = 0; p < n; p++)
            for (int value = 0; value < 256; value++) {
                x[p] = (uint8_t)value;
                check_ceiling(x, n);
                x[p] = 20;
            }
}

/* So many others, so many at the ceiling, so many others; in the header's own numbers, which the checks above do not use. */
static void edges(void)
{
    enum { ALL = FINDER_RECENT, LESS = ALL - 1 };
    static const struct { size_t before, run, after, held; } edge[] = {{0, LESS, 0, 1}, {0, ALL, 0, 1}, {1, LESS, 0, 0}, {1, ALL, 0, 1},
                                                                       {0, ALL, 1, 0},  {0, 1, 0, 1},   {1, 0, 0, 0}};
    for (size_t k = 0; k < sizeof edge / sizeof *edge; k++) {
        uint8_t x[1 + ALL];
        size_t n = edge[k].before + edge[k].run + edge[k].after;
        memset(x, 4, sizeof x);
        memset(x + edge[k].before, FINDER_CEILING, edge[k].run);
        check_ceiling(x, n);
        finder_held h = finder_ceiling(x, n);
        CHECK(h.number == 0 && h.held == edge[k].held && h.ceiling == edge[k].run);
    }
}

static void files(void)
{
    static uint8_t f[3 + FINDER_LONGEST + 1] = {1, FINDER_LONGEST >> 8, FINDER_LONGEST & 255};
    for (size_t len = 0; len <= sizeof f; len++)
        check_file(f, len);
    for (size_t n = 0; n <= FINDER_LONGEST + 1; n++) {
        f[1] = (uint8_t)(n >> 8);
        f[2] = (uint8_t)n;
        check_file(f, 3 + n);
    }
    for (int round = 0; round < 20000; round++) {
        static const uint8_t bytes[] = {0, 1, 2, 3, 4, 20, 21, 255};
        uint8_t small[8] = {1, 0, 5, 20, 0, 20, 0, 20};
        for (size_t damages = below(4); damages > 0; damages--)
            small[below(sizeof small)] = bytes[below(sizeof bytes)];
        check_file(small, below(4) ? sizeof small : below(sizeof small));
    }
}

int main(void)
{
    small_logs(2, 10);
    small_logs(3, 6);
    longer_logs();
    lengths();
    ceilings();
    edges();
    files();
    puts("c tests: every call agrees with its definition");
    return 0;
}
