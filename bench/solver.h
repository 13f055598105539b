/* What is timed: something that solves a pattern's equations. What can be done once for a pattern is done by `prepare`; `solve` goes from
   values and right side to the solution and is called again and again. */
#ifndef BENCH_SOLVER_H
#define BENCH_SOLVER_H
#include "pattern.h"

struct solver {
    const char *name;
    void (*prepare)(const struct pattern *p);
    int (*solve)(const struct pattern *p, double *x); /* 0: solved */
    void (*release)(void);
};

extern const struct solver square_solver, lapack_solver, klu_solver, superlu_solver;
size_t square_updates(void);             /* of the last solve */
const size_t *square_pivots(void);       /* rows from 1 */

/* The columns of a pattern, for those who take them: places from 0. */
struct by_columns {
    int *starts, *rows;
    double *values;
};
struct by_columns columns_of(const struct pattern *p);
void by_columns_free(struct by_columns *c);
#endif
