/* LAPACK's dgesv on the full square; laying it out is counted, as it is for the square in C. */
#include "solver.h"

#include <stdlib.h>
#include <string.h>

void dgesv_(const int *n, const int *sides, double *a, const int *a_rows, int *pivots, double *b, const int *b_rows, int *info);

static double *square;
static int *pivots;

static void prepare(const struct pattern *p)
{
    square = room(p->n * p->n, sizeof *square);
    pivots = room(p->n, sizeof *pivots);
}

static void release(void)
{
    free(square);
    free(pivots);
}

static int solve(const struct pattern *p, double *x)
{
    const int n = (int)p->n, one = 1;
    int info;
    memset(square, 0, p->n * p->n * sizeof *square);
    for (size_t i = 0; i < p->n; i++)
        for (size_t q = p->starts[i]; q < p->starts[i + 1]; q++)
            square[(p->columns[q] - 1) * p->n + i] = p->values[q];
    memcpy(x, p->right, p->n * sizeof *x);
    dgesv_(&n, &one, square, &n, pivots, x, &n, &info);
    return info;
}

const struct solver lapack_solver = {"dgesv", prepare, solve, release};
