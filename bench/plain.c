#include "plain.h"

enum { LONGEST = 4096 };

static size_t least(size_t a, size_t b)
{
    return a < b ? a : b;
}

/* The failure function of Knuth, Morris and Pratt. */
static void border_of(const uint8_t *x, size_t n, uint16_t *border)
{
    size_t b = 0;
    border[0] = 0;
    for (size_t i = 1; i < n; i++) {
        while (b > 0 && x[b] != x[i])
            b = border[b - 1];
        b += x[b] == x[i];
        border[i] = (uint16_t)b;
    }
}

/* The Z table: [l, r) is the match that reaches furthest right. */
static void prefix_of(const uint8_t *x, size_t n, uint16_t *prefix)
{
    size_t l = 0, r = 0;
    prefix[0] = (uint16_t)n;
    for (size_t i = 1; i < n; i++) {
        size_t m = i < r ? least(prefix[i - l], r - i) : 0;
        while (i + m < n && x[m] == x[i + m])
            m++;
        if (r < i + m) {
            l = i;
            r = i + m;
        }
        prefix[i] = (uint16_t)m;
    }
}

/* The longest living node on the way up from m, m itself included. The way is shortened as it is walked. */
static size_t living(uint16_t *up, size_t m)
{
    while (up[m] != m)
        m = up[m] = up[up[m]];
    return m;
}

/* A node that is below the period and has no living child dies, and so may the one above it. The root never does. */
static void bury(uint16_t *up, uint16_t *children, const uint16_t *cover, size_t m)
{
    while (children[m] == 0) {
        up[m] = cover[m - 1];
        m = up[m];
        children[m]--;
    }
}

/* Li and Smyth's on-line cover table. Each prefix hangs under its longest proper cover; 0 is the root. */
static void cover_of(const uint16_t *border, size_t n, uint16_t *cover)
{
    uint16_t up[LONGEST + 1], children[LONGEST + 1];
    size_t period = 1;
    up[0] = 0;
    children[0] = 1;
    for (size_t i = 1; i <= n; i++) {
        size_t b = border[i - 1];
        for (; period < i - b; period++)
            bury(up, children, cover, period);
        size_t c = living(up, b);
        cover[i - 1] = (uint16_t)c;
        children[c]++;
        up[i] = (uint16_t)i;
        children[i] = 0;
    }
}

/*
 * The enhanced table: at each prefix the borders without a proper cover, longest first, each with its last end and the positions
 * that it has covered. bare[q] is the longest such prefix among q and its borders.
 */
static uint32_t enhanced_of(const uint16_t *border, const uint16_t *cover, size_t n, uint16_t *best, uint16_t *count)
{
    uint16_t bare[LONGEST + 1], last[LONGEST + 1], covered[LONGEST + 1];
    uint32_t total = 0;
    bare[0] = 0;
    for (size_t i = 1; i <= n; i++) {
        size_t longest = bare[border[i - 1]], pattern = 0, most = 0;
        for (size_t q = longest; q > 0; q = bare[border[q - 1]]) {
            size_t now = covered[q] + least(q, i - last[q]);
            covered[q] = (uint16_t)now;
            last[q] = (uint16_t)i;
            if (now >= most) {
                pattern = q;
                most = now;
            }
            total++;
        }
        best[i - 1] = (uint16_t)pattern;
        count[i - 1] = (uint16_t)most;
        bare[i] = (uint16_t)(cover[i - 1] == 0 ? i : longest);
        last[i] = covered[i] = (uint16_t)i;
    }
    return total;
}

typedef struct {
    size_t pattern, most;
} row;

static int better(row a, row b)
{
    return a.most > b.most || (a.most == b.most && a.pattern < b.pattern);
}

/* The left covers, in the place of the enhanced table: the best of its rows so far. */
static void left_of(size_t n, uint16_t *best, uint16_t *count)
{
    row left = {0, 0};
    for (size_t i = 0; i < n; i++) {
        row r = {best[i], count[i]};
        if (better(r, left))
            left = r;
        best[i] = (uint16_t)left.pattern;
        count[i] = (uint16_t)left.most;
    }
}

/*
 * What the left seeds keep: bare, last and covered as the enhanced table does. under[m] is the longest prefix without a proper cover of
 * length m or less, fall[m] the longest border of m that is shorter than that. `twice` is the longest prefix that has occurred twice: the
 * greatest border so far. `left` is the left cover.
 */
typedef struct {
    uint16_t bare[LONGEST + 1], last[LONGEST + 1], covered[LONGEST + 1], under[LONGEST + 1], fall[LONGEST + 1];
    size_t twice;
    row left;
} bed;

/* Row i of the enhanced table. */
static row weigh(bed *k, const uint16_t *border, const uint16_t *cover, size_t i)
{
    size_t longest = k->bare[border[i - 1]];
    row best = {0, 0};
    for (size_t q = longest; q > 0; q = k->bare[border[q - 1]]) {
        size_t now = k->covered[q] + least(q, i - k->last[q]);
        k->covered[q] = (uint16_t)now;
        k->last[q] = (uint16_t)i;
        if (now >= best.most)
            best = (row){q, now};
    }
    k->bare[i] = (uint16_t)(cover[i - 1] == 0 ? i : longest);
    k->last[i] = k->covered[i] = (uint16_t)i;
    return best;
}

static void keep(bed *k, const uint16_t *cover, size_t i, size_t b, row best)
{
    k->under[i] = (uint16_t)(cover[i - 1] == 0 ? i : k->under[i - 1]);
    k->fall[i] = b < k->under[i] ? (uint16_t)b : k->fall[b];
    if (k->twice < b)
        k->twice = b;
    if (better(best, k->left))
        k->left = best;
}

/* A left seed, and how much of its start ends the prefix: the longest border that is shorter than the seed. */
typedef struct {
    row row;
    size_t start;
} seed;

/* Compiled for pairs.c, the search tells how many patterns it looks at. */
#ifdef PAIRS
size_t pairs;
#define LOOKED_AT pairs++
#else
#define LOOKED_AT (void)0
#endif

/* Every prefix without a proper cover that has occurred twice, longest first. */
static seed search(const bed *k, size_t i, size_t b)
{
    seed best = {{0, 0}, 0};
    size_t start = b;
    for (size_t q = k->under[k->twice]; q > 0; q = k->under[q - 1]) {
        LOOKED_AT;
        if (q <= start)
            start = k->fall[start];
        if (k->covered[q] + start < best.row.most)
            continue;
        size_t now = k->covered[q] + least(start, i - k->last[q]);
        if (now >= best.row.most)
            best = (seed){{q, now}, start};
    }
    return best;
}

/* A prefix that ends here starts again with its longest border. */
static seed ended(row r, const uint16_t *border)
{
    return (seed){r, border[r.pattern - 1]};
}

/* The seed of the row before, with one reading more of its start. */
static seed grown(seed was, const uint16_t *border)
{
    row r = {was.row.pattern, was.row.most + 1};
    return was.start + 1 == r.pattern ? ended(r, border) : (seed){r, was.start + 1};
}

/*
 * The seed of row i, where `best` is Best and Count. From row to row a prefix gains one position at most, unless it occurs for the second
 * time: then it ends here. So a seed that grows is beaten by Best alone, and a Count above what it could have grown to decides too. The
 * left cover gains the whole of a border that is shorter and begins after its last end, and none gains more. Else there is a search.
 */
static seed seed_of(const bed *k, const uint8_t *x, const uint16_t *border, size_t i, row best, seed was)
{
    size_t b = border[i - 1];
    if (was.row.pattern > 0 && x[was.start] == x[i - 1]) {
        seed on = grown(was, border);
        return better(best, on.row) ? ended(best, border) : on;
    }
    if (best.most > was.row.most + 1)
        return ended(best, border);
    if (k->left.pattern > b && k->last[k->left.pattern] + b <= i)
        return (seed){{k->left.pattern, k->left.most + b}, b};
    return search(k, i, b);
}

static void seeds_of(const uint8_t *x, const uint16_t *border, const uint16_t *cover, size_t n, uint16_t *best, uint16_t *count)
{
    bed k;
    seed s = {{0, 0}, 0};
    k.bare[0] = k.under[0] = k.fall[0] = 0;
    k.twice = 0;
    k.left = s.row;
    for (size_t i = 1; i <= n; i++) {
        row r = weigh(&k, border, cover, i);
        keep(&k, cover, i, border[i - 1], r);
        s = seed_of(&k, x, border, i, r, s);
        best[i - 1] = (uint16_t)s.row.pattern;
        count[i - 1] = (uint16_t)s.row.most;
    }
}

void c_border(const uint8_t *x, size_t n, uint16_t *border)
{
    border_of(x, n, border);
}

void c_prefix(const uint8_t *x, size_t n, uint16_t *prefix)
{
    prefix_of(x, n, prefix);
}

void c_cover(const uint8_t *x, size_t n, uint16_t *cover)
{
    uint16_t border[LONGEST];
    border_of(x, n, border);
    cover_of(border, n, cover);
}

uint32_t c_enhanced(const uint8_t *x, size_t n, uint16_t *best, uint16_t *count)
{
    uint16_t border[LONGEST], cover[LONGEST];
    border_of(x, n, border);
    cover_of(border, n, cover);
    return enhanced_of(border, cover, n, best, count);
}

void c_left_covers(const uint8_t *x, size_t n, uint16_t *best, uint16_t *count)
{
    uint16_t border[LONGEST], cover[LONGEST];
    border_of(x, n, border);
    cover_of(border, n, cover);
    enhanced_of(border, cover, n, best, count);
    left_of(n, best, count);
}

void c_left_seeds(const uint8_t *x, size_t n, uint16_t *best, uint16_t *count)
{
    uint16_t border[LONGEST], cover[LONGEST];
    border_of(x, n, border);
    cover_of(border, n, cover);
    seeds_of(x, border, cover, n, best, count);
}

uint32_t c_all(const uint8_t *x, size_t n, uint16_t *border, uint16_t *prefix, uint16_t *cover, uint16_t *best, uint16_t *count)
{
    border_of(x, n, border);
    prefix_of(x, n, prefix);
    cover_of(border, n, cover);
    return enhanced_of(border, cover, n, best, count);
}

uint32_t c_ceiling(const uint8_t *x, size_t n)
{
    uint32_t ceiling = 0;
    for (size_t p = 0; p < n; p++)
        ceiling += x[p] == 20;
    for (size_t p = n < 60 ? 0 : n - 60; p < n; p++)
        if (x[p] != 20)
            return ceiling;
    return ceiling + HELD;
}
