#include "logs.h"

/* Symbols of the plant's file: outdoor air, a reading between, and the ceiling. */
enum { LOW = 4, MIDDLE = 12, HIGH = 20 };

/* Marsaglia's xorshift, with a fixed seed: every run measures the same logs. */
static uint64_t chance(uint64_t *state)
{
    *state ^= *state << 13;
    *state ^= *state >> 7;
    *state ^= *state << 17;
    return *state >> 11;
}

static const uint64_t SEED = 88172645463325252u;

static void flat(uint8_t *x, size_t n)
{
    for (size_t p = 0; p < n; p++)
        x[p] = HIGH;
}

/* The reading at p is the one as many places before as the greatest Fibonacci number not above p. */
static void fibonacci(uint8_t *x, size_t n)
{
    size_t shorter = 1, longer = 2;
    for (size_t p = 0; p < n; p++) {
        if (p == shorter + longer) {
            longer += shorter;
            shorter = longer - shorter;
        }
        x[p] = p == 0 ? LOW : p == 1 ? HIGH : x[p - longer];
    }
}

/* A dosing cycle of 40 readings: a quick rise to the ceiling, some time there, a slow fall. */
static void cycle(uint8_t *x, size_t n)
{
    static const uint8_t readings[40] = {4,  5,  8,  11, 14, 17, 19, 20, 20, 20, 20, 20, 20, 19, 18, 17, 17, 16, 15, 15,
                                         14, 13, 13, 12, 12, 11, 11, 10, 10, 9,  9,  8,  8,  7,  7,  6,  6,  5,  5,  4};
    for (size_t p = 0; p < n; p++)
        x[p] = readings[p % 40];
}

/* The cycle, with one reading in a hundred off by one. */
static void defects(uint8_t *x, size_t n)
{
    uint64_t state = SEED;
    cycle(x, n);
    for (size_t p = 0; p < n; p++)
        if (chance(&state) % 100 == 0)
            x[p]--;
}

static void runs(uint8_t *x, size_t n)
{
    for (size_t p = 0; p < n; p++)
        x[p] = p % 64 < 63 ? HIGH : LOW;
}

static void two_letters(uint8_t *x, size_t n)
{
    uint64_t state = SEED;
    for (size_t p = 0; p < n; p++)
        x[p] = chance(&state) % 2 ? HIGH : LOW;
}

/* The readings from the first `from` on are the log's first. */
static void again(uint8_t *x, size_t n, size_t from)
{
    for (size_t p = from; p < n; p++)
        x[p] = x[p - from];
}

/* A random half, and once more. */
static void half(uint8_t *x, size_t n)
{
    two_letters(x, n);
    again(x, n, (n + 1) / 2);
}

/*
 * Readings of which three in five are at the ceiling, a run at the ceiling, and the same readings once more. For the left seeds: as the
 * readings come again, one prefix without a cover after another has occurred twice, the run is covered by one reading best, and each
 * search looks at them all.
 */
static void worst(uint8_t *x, size_t n)
{
    static const uint8_t readings[5] = {HIGH, HIGH, HIGH, MIDDLE, LOW};
    uint64_t state = SEED;
    size_t ends = 3 * n / 8;
    flat(x, n);
    for (size_t p = 1; p < ends; p++)
        x[p] = readings[chance(&state) % 5];
    again(x, n, n - ends);
}

const char *const kind_names[KINDS] = {"flat", "Fibonacci", "cycle", "defects", "runs", "random", "half", "worst"};

void make_log(int kind, uint8_t *x, size_t n)
{
    static void (*const makers[KINDS])(uint8_t *, size_t) = {flat, fibonacci, cycle, defects, runs, two_letters, half, worst};
    makers[kind](x, n);
}
