/* SuperLU in natural order: no equilibration, no refinement, the largest entry of each column. Its column tree is made once for a pattern;
   it finds its own slots while it factors. */
#include "solver.h"

#include <slu_ddefs.h>
#include <string.h>

static struct by_columns c;
static superlu_options_t options;
static SuperMatrix a, ordered;
static int *column_order, *row_order, *tree;

static void prepare(const struct pattern *p)
{
    int n = (int)p->n;
    c = columns_of(p);
    set_default_options(&options);
    options.Equil = NO;
    options.ColPerm = NATURAL;
    options.DiagPivotThresh = 1.0;
    options.SymmetricMode = NO;
    options.PrintStat = NO;
    column_order = room(p->n, sizeof(int));
    row_order = room(p->n, sizeof(int));
    tree = room(p->n, sizeof(int));
    dCreate_CompCol_Matrix(&a, n, n, (int)p->entries, c.values, c.rows, c.starts, SLU_NC, SLU_D, SLU_GE);
    get_perm_c(NATURAL, &a, column_order);
    sp_preorder(&options, &a, column_order, tree, &ordered);
}

static void release(void)
{
    Destroy_CompCol_Permuted(&ordered);
    Destroy_SuperMatrix_Store(&a);
    by_columns_free(&c);
    free(column_order);
    free(row_order);
    free(tree);
}

static int solve(const struct pattern *p, double *x)
{
    SuperMatrix l, u, b;
    SuperLUStat_t statistics;
    GlobalLU_t lists;
    int n = (int)p->n, info;
    StatInit(&statistics);
    dgstrf(&options, &ordered, sp_ienv(2), sp_ienv(1), tree, NULL, 0, column_order, row_order, &l, &u, &lists, &statistics, &info);
    if (info == 0) {
        memcpy(x, p->right, p->n * sizeof *x);
        dCreate_Dense_Matrix(&b, n, 1, x, n, SLU_DN, SLU_D, SLU_GE);
        dgstrs(NOTRANS, &l, &u, column_order, row_order, &b, &statistics, &info);
        Destroy_SuperMatrix_Store(&b);
        Destroy_SuperNode_Matrix(&l);
        Destroy_CompCol_Matrix(&u);
    }
    StatFree(&statistics);
    return info;
}

const struct solver superlu_solver = {"SuperLU", prepare, solve, release};
