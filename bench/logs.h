/*
 * The kinds of log that are measured: the first COMMON with every call; the others, which the left seeds find hard, with the left covers,
 * the left seeds and the enhanced table, in which the left covers are told.
 */
#ifndef LOGS_H
#define LOGS_H

#include <stddef.h>
#include <stdint.h>

enum { FLAT, FIBONACCI, CYCLE, DEFECTS, RUNS, RANDOM, COMMON, HALF = COMMON, WORST, KINDS };

extern const char *const kind_names[KINDS];

/* The kind's log of n readings. */
void make_log(int kind, uint8_t *x, size_t n);

#endif
