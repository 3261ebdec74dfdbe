/*
 * The same procedures with no proof and no refusal, in C (plain.c) and in Rust (plain.rs). Row i of a table is t[i - 1];
 * 1 <= n <= 4096. Each call makes the tables that it needs by itself. `ceiling` answers the readings at the ceiling, and HELD more
 * where the last 60, or all of fewer, are.
 */
#ifndef PLAIN_H
#define PLAIN_H

#include <stddef.h>
#include <stdint.h>

#define HELD 65536

#define PLAIN(language)                                                                                     \
    void language##_border(const uint8_t *x, size_t n, uint16_t *border);                                   \
    void language##_prefix(const uint8_t *x, size_t n, uint16_t *prefix);                                   \
    void language##_cover(const uint8_t *x, size_t n, uint16_t *cover);                                     \
    uint32_t language##_enhanced(const uint8_t *x, size_t n, uint16_t *best, uint16_t *count);              \
    void language##_left_covers(const uint8_t *x, size_t n, uint16_t *best, uint16_t *count);               \
    void language##_left_seeds(const uint8_t *x, size_t n, uint16_t *best, uint16_t *count);                \
    uint32_t language##_all(const uint8_t *x, size_t n, uint16_t *border, uint16_t *prefix, uint16_t *cover, \
                            uint16_t *best, uint16_t *count);                                               \
    uint32_t language##_ceiling(const uint8_t *x, size_t n);

#ifdef PAIRS
extern size_t pairs; /* how many patterns the search for left seeds looked at */
#endif

PLAIN(c)
PLAIN(rust)

#endif
