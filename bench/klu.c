/* KLU in natural order: no blocks, no scaling, the largest entry of each column. Its analysis is done once for a pattern, as our plan is. */
#include "solver.h"

#include <klu.h>
#include <string.h>

static struct by_columns c;
static klu_common common;
static klu_symbolic *symbolic;

static void prepare(const struct pattern *p)
{
    c = columns_of(p);
    klu_defaults(&common);
    common.btf = 0;
    common.scale = -1;
    common.tol = 1.0;
    symbolic = klu_analyze_given((int)p->n, c.starts, c.rows, NULL, NULL, &common);
}

static void release(void)
{
    klu_free_symbolic(&symbolic, &common);
    by_columns_free(&c);
}

static int solve(const struct pattern *p, double *x)
{
    klu_numeric *numeric = symbolic ? klu_factor(c.starts, c.rows, c.values, symbolic, &common) : NULL;
    if (!numeric)
        return 1;
    memcpy(x, p->right, p->n * sizeof *x);
    int solved = klu_solve(symbolic, numeric, (int)p->n, 1, x, &common);
    klu_free_numeric(&numeric, &common);
    return !solved;
}

const struct solver klu_solver = {"KLU", prepare, solve, release};
