/* Patterns with values, made from a fixed seed: the same on every machine. Every row has its diagonal place. */
#ifndef BENCH_PATTERN_H
#define BENCH_PATTERN_H
#include <stddef.h>

enum kind { GRID, SURVEY, STRIP, BAND, RANDOM, ARROW_LAST, ARROW_FIRST, DENSE, UNSHARED };

struct pattern {
    size_t n, entries;
    size_t *starts, *columns; /* as the library takes them: places from 0, columns from 1 */
    double *values, *right;
};

/* `size` is n, for a grid its side; `width` is the half-width of a band and what a random row has beside its diagonal. */
struct pattern pattern_make(enum kind kind, size_t size, size_t width, int dominant);
struct pattern pattern_of_load(const char *name); /* SEED,N,D: the test load of document 02's ticket 6, or the program ends */
void pattern_free(struct pattern *p);
void *room(size_t count, size_t size); /* zeros, or the program ends */
#endif
