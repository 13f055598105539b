#include "calls.h"
#include "pattern.h"

#include <stdio.h>
#include <stdlib.h>
#include <string.h>

#define MOST 1024
#define PLACES 16384 /* of a load's columns and values */

static void refuse(const char *name, const char *what)
{
    fprintf(stderr, "bench: the load %s: %s\n", name, what);
    exit(2);
}

/* The three numbers, with nothing behind them and no sign before. */
static void read_name(const char *name, uint32_t *seed, size_t *n, size_t *d)
{
    unsigned long long first = 0;
    char behind;
    if (strspn(name, "0123456789,") != strlen(name) || sscanf(name, "%llu,%zu,%zu%c", &first, n, d, &behind) != 3 || first > UINT32_MAX)
        refuse(name, "SEED,N,D has to be a seed of 32 bits and two whole numbers");
    *seed = (uint32_t)first;
}

struct pattern pattern_of_load(const char *name)
{
    uint32_t seed;
    size_t n, d, answer[3];
    read_name(name, &seed, &n, &d);
    if (n > MOST)
        refuse(name, "refused with 1");
    struct pattern p = {.n = n};
    p.starts = room(n + 1, sizeof *p.starts);
    p.columns = room(PLACES, sizeof *p.columns);
    p.values = room(PLACES, sizeof *p.values);
    p.right = room(n, sizeof *p.right);
    size_t number = dalumiveth_load(seed, n, d, p.starts, n + 1, p.columns, PLACES, p.values, PLACES, p.right, n, answer, 3);
    if (number != 0)
        refuse(name, number == 1 ? "refused with 1" : "refused with 23");
    p.entries = answer[2];
    return p;
}
