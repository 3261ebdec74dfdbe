/*
 * The pattern finder: tables, covers and best patterns of a log of readings. Link with libcabinet.a (x86-64, System V calls).
 *
 * A log x is n bytes of any value, 1 <= n <= FINDER_LONGEST. Positions and rows count from 1: row i of a table is t[i - 1]
 * and speaks of the prefix of length i. A pattern is a nonempty prefix. Its occurrences may overlap.
 *
 * For every call:
 *   - `number` is 0 where the call is accepted. Otherwise it is the first refusal that applies, in the order given at the call,
 *     every other field is 0, and no entry of any lent table has changed.
 *   - A pointer is never NULL, also where its length is 0. It points to at least as many entries as the length after it says.
 *   - Lent tables overlap neither each other nor the log. The log is only read.
 *   - What stood in a table before never matters to an answer.
 *   - There is no state: no memory is kept or allocated, and calls may run at the same time on tables of their own.
 *   - A call works on the stack: arrays of 8 KB, at most six of them, and 2 KB beside. docs/SPEED.md says how many each call takes.
 */
#ifndef FINDER_H
#define FINDER_H

#include <stddef.h>
#include <stdint.h>

#ifdef __cplusplus
extern "C" {
#endif

/* The most readings that a log may have. */
#define FINDER_LONGEST 4096

/* The symbol of a reading at the ceiling, and how many of the last readings say whether a head is held there. */
#define FINDER_CEILING 20
#define FINDER_RECENT 60

/* The places of a weighed list and of a breakdown: enough for every log. */
#define FINDER_WEIGHED_PLACES 12
#define FINDER_BREAKDOWN_PLACES 13

/* The numbers that say no. */
#define FINDER_EMPTY 1   /* the log has no reading */
#define FINDER_LONG 2    /* the log has more than FINDER_LONGEST readings */
#define FINDER_PLACE 3   /* a prefix, a pattern or a window does not lie in the log */
#define FINDER_SHORT 4   /* a lent table has too few entries */
#define FINDER_NONE 5    /* there is no best pattern */
#define FINDER_VERSION 6 /* the file's first byte is not 1 */
#define FINDER_FILE 7    /* the file has no full header, or not the size that its header says */
#define FINDER_SYMBOL 8  /* the file has a symbol above 20 */

/* A call that only writes tables. */
typedef struct {
    uint8_t number;
} finder_written;

/* total: the weighed total, the sum of `used` of finder_weighed_list over all rows. */
typedef struct {
    uint8_t number;
    uint32_t total;
} finder_weighing;

/* used: how many entries were written. */
typedef struct {
    uint8_t number;
    uint16_t used;
} finder_listed;

/* A prefix of length i with border entry f: k1 = i - f, k = i / k1, k2 = i % k1. */
typedef struct {
    uint8_t number;
    uint16_t k1, k2, k;
} finder_normal;

/* A part of a breakdown: its length with its normal form. */
typedef struct {
    uint16_t len, k1, k2, k;
} finder_part;

/* parts: the first `used` are the breakdown, the rest are zeros. */
typedef struct {
    uint8_t number;
    uint16_t used;
    finder_part parts[FINDER_BREAKDOWN_PLACES];
} finder_parts;

/* lens: the first `used` are the weighed list, longest first, the rest are zeros. used <= limit. */
typedef struct {
    uint8_t number;
    uint16_t used, limit;
    uint16_t lens[FINDER_WEIGHED_PLACES];
} finder_weighed;

/* covers: 1 for yes, 0 for no. */
typedef struct {
    uint8_t number;
    uint8_t covers;
} finder_covers;

/* held: 1 where the head is held at the ceiling now, else 0. ceiling: how many readings are at the ceiling. */
typedef struct {
    uint8_t number;
    uint8_t held;
    uint16_t ceiling;
} finder_held;

/* A part of the caller's own bytes: `len` of them after the first `start`. */
typedef struct {
    uint8_t number;
    size_t start, len;
} finder_span;

/*
 * The border table. Row i: the greatest length below i that is both a prefix and a suffix of the prefix of length i; 0 if none.
 * Refuses: EMPTY; LONG; SHORT where tn < n.
 * Writes t[0] to t[n - 1]; later entries stay.
 */
finder_written finder_border_table(const uint8_t *x, size_t n, uint16_t *t, size_t tn);

/*
 * The prefix table. Row i: the greatest length m such that the m readings from position i on equal the first m. Row 1 is n.
 * Refuses: EMPTY; LONG; SHORT where tn < n.
 * Writes t[0] to t[n - 1]; later entries stay.
 */
finder_written finder_prefix_table(const uint8_t *x, size_t n, uint16_t *t, size_t tn);

/*
 * The cover table. Row i: the longest pattern shorter than i that covers the prefix of length i; 0 if none. A pattern covers
 * a prefix if every position of it lies inside an occurrence that ends within it.
 * Refuses: EMPTY; LONG; SHORT where tn < n.
 * Writes t[0] to t[n - 1]; later entries stay.
 */
finder_written finder_cover_table(const uint8_t *x, size_t n, uint16_t *t, size_t tn);

/*
 * The enhanced table. Row i: of the nonempty borders of the prefix of length i, `best` has the shortest of those that cover
 * the most of its positions, and `count` has how many these are; both 0 if there is no nonempty border.
 * Answers the weighed total of the log.
 * Refuses: EMPTY; LONG; SHORT where bn < n or cn < n.
 * Writes best[0] to best[n - 1] and count[0] to count[n - 1]; later entries stay.
 */
finder_weighing finder_enhanced_table(const uint8_t *x, size_t n, uint16_t *best, size_t bn, uint16_t *count, size_t cn);

/*
 * The left covers. Row i: of the patterns that occur at least twice in the prefix of length i, `best` has the shortest of those that
 * cover the most of its positions, and `count` has how many these are; both 0 if there is none.
 * Refuses: EMPTY; LONG; SHORT where bn < n or cn < n.
 * Writes best[0] to best[n - 1] and count[0] to count[n - 1]; later entries stay.
 */
finder_written finder_left_covers(const uint8_t *x, size_t n, uint16_t *best, size_t bn, uint16_t *count, size_t cn);

/*
 * The left seeds. As the left covers, of the same patterns, but a pattern that is not yet read to its end covers too: of one of
 * length q, every m < q such that the last m readings of the prefix equal the first m covers these last m positions.
 * Refuses: EMPTY; LONG; SHORT where bn < n or cn < n.
 * Writes best[0] to best[n - 1] and count[0] to count[n - 1]; later entries stay.
 */
finder_written finder_left_seeds(const uint8_t *x, size_t n, uint16_t *best, size_t bn, uint16_t *count, size_t cn);

/*
 * A window: the m readings after the first a, judged as a log of their own. Its five columns go to rows a + 1 to a + m.
 * Answers the weighed total of the window.
 * Refuses: EMPTY; LONG; PLACE where m is 0 or a + m > n; SHORT where one of bn, pn, cn, en, kn is below a + m.
 * The sum a + m never wraps.
 * Writes entries a to a + m - 1 of all five tables; the entries before and after stay.
 */
finder_weighing finder_window(const uint8_t *x, size_t n, size_t a, size_t m, uint16_t *border, size_t bn, uint16_t *prefix, size_t pn,
                              uint16_t *cover, size_t cn, uint16_t *best, size_t en, uint16_t *count, size_t kn);

/*
 * The normal form of the prefix of length i.
 * Refuses: EMPTY; LONG; PLACE where i is 0 or i > n.
 */
finder_normal finder_normal_form(const uint8_t *x, size_t n, size_t i);

/*
 * The breakdown. Its first part is the whole log. The part after one with normal form k1, k2, k is the prefix of length k2 if
 * that is not 0, else the prefix of length k1 if k > 1; else there is no further part.
 * Refuses: EMPTY; LONG.
 */
finder_parts finder_breakdown(const uint8_t *x, size_t n);

/*
 * The list of covers: the length of every pattern that covers the log, rising. The last one is n.
 * Refuses: EMPTY; LONG; SHORT where tn < n.
 * Writes t[0] to t[used - 1]; later entries stay.
 */
finder_listed finder_cover_list(const uint8_t *x, size_t n, uint16_t *t, size_t tn);

/*
 * The cover test: does the pattern of length q cover the prefix of length i?
 * Refuses: EMPTY; LONG; PLACE where i is 0 or i > n, or q is 0 or q > i.
 */
finder_covers finder_cover_test(const uint8_t *x, size_t n, size_t i, size_t q);

/*
 * The weighed list at i: the nonempty borders of the prefix of length i that no shorter pattern covers. Each is more than twice
 * the next one. `limit` is the exponent of the greatest power of two not above i.
 * Refuses: EMPTY; LONG; PLACE where i is 0 or i > n.
 */
finder_weighed finder_weighed_list(const uint8_t *x, size_t n, size_t i);

/*
 * The best pattern of the whole log, as a part of it: `len` is row n of `best`, `start` is 0.
 * Refuses: EMPTY; LONG; NONE where the log has no nonempty border.
 */
finder_span finder_best_pattern(const uint8_t *x, size_t n);

/*
 * How the log stands to the ceiling. `held` is 1 if the last FINDER_RECENT readings are all FINDER_CEILING, or, where the log has
 * fewer, if every reading is; else 0. `ceiling` is how many of all its readings are. The others may have any value.
 * Refuses: EMPTY; LONG.
 */
finder_held finder_ceiling(const uint8_t *x, size_t n);

/*
 * The plant's file of len bytes: version 1, n in two bytes, the greater first, then n symbols of 0 to 20. Answers the part
 * that holds the symbols: `start` is 3, `len` is n.
 * Refuses: FILE where len < 3; VERSION; EMPTY and LONG by the two bytes; FILE where len is not 3 + n; SYMBOL.
 */
finder_span finder_file(const uint8_t *f, size_t len);

#ifdef __cplusplus
}
#endif

/* The layout that the library was compiled for. */
#if defined(__cplusplus) && __cplusplus >= 201103L
#define FINDER_SIZE(type, size) static_assert(sizeof(type) == (size), #type)
#elif defined(__STDC_VERSION__) && __STDC_VERSION__ >= 201112L
#define FINDER_SIZE(type, size) _Static_assert(sizeof(type) == (size), #type)
#else
#define FINDER_SIZE(type, size) typedef char type##_size[sizeof(type) == (size) ? 1 : -1]
#endif

FINDER_SIZE(finder_written, 1);
FINDER_SIZE(finder_weighing, 8);
FINDER_SIZE(finder_listed, 4);
FINDER_SIZE(finder_normal, 8);
FINDER_SIZE(finder_part, 8);
FINDER_SIZE(finder_parts, 4 + 8 * FINDER_BREAKDOWN_PLACES);
FINDER_SIZE(finder_weighed, 6 + 2 * FINDER_WEIGHED_PLACES);
FINDER_SIZE(finder_covers, 2);
FINDER_SIZE(finder_held, 4);
FINDER_SIZE(finder_span, 24);

#undef FINDER_SIZE

#endif
