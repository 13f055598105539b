/* The same job on a full n by n square, by the rules of document 01 ("Elimination") and of document 02's ticket 14: what one would write in C
   without a plan.

   The columns of the pivot row that are not zero are listed once a step. Where they fill at least a quarter of the stretch from the first to
   the last of them, the inner loop runs over the stretch and chooses by value, which the compiler can vectorize; else it runs over the list.
   A number that is not finite never goes away again (see below), so one look at the end is enough to say whether 14 would have to be given. */
#include "solver.h"

#include <math.h>
#include <stdlib.h>
#include <string.h>

#define LEAST_PIVOT 0x1p-1022 /* the least magnitude of a pivot */

static struct {
    size_t n, stride, updates, *pivots, *listed; /* rows stand `stride` numbers apart */
    double *at, *right;
} sq;

static void prepare(const struct pattern *p)
{
    sq.n = p->n;
    sq.stride = p->n + 8; /* a power of two would put a whole column into a few lines of the cache */
    sq.at = room(p->n * sq.stride, sizeof(double));
    sq.right = room(p->n, sizeof(double));
    sq.pivots = room(p->n, sizeof(size_t));
    sq.listed = room(p->n, sizeof(size_t));
}

static void release(void)
{
    free(sq.at);
    free(sq.right);
    free(sq.pivots);
    free(sq.listed);
}

static void lay_out(const struct pattern *p)
{
    memset(sq.at, 0, p->n * sq.stride * sizeof(double));
    for (size_t i = 0; i < p->n; i++)
        for (size_t q = p->starts[i]; q < p->starts[i + 1]; q++)
            sq.at[i * sq.stride + p->columns[q] - 1] = p->values[q];
    memcpy(sq.right, p->right, p->n * sizeof(double));
}

/* The largest magnitude in column k from row k on, the lowest row if equal. If any may be a pivot, this one may. */
static size_t largest(size_t k)
{
    size_t best = k;
    double most = fabs(sq.at[k * sq.stride + k]);
    for (size_t i = k + 1; i < sq.n; i++) {
        double here = fabs(sq.at[i * sq.stride + k]);
        if (here > most) {
            most = here;
            best = i;
        }
    }
    return best;
}

static void exchange(size_t k, size_t p)
{
    if (p == k)
        return;
    double *a = sq.at + k * sq.stride, *b = sq.at + p * sq.stride;
    for (size_t j = k; j < sq.n; j++) {
        double kept = a[j];
        a[j] = b[j];
        b[j] = kept;
    }
    double kept = sq.right[k];
    sq.right[k] = sq.right[p];
    sq.right[p] = kept;
}

/* The columns above k in which the pivot row is not zero. */
static size_t list_pivot_row(size_t k)
{
    const double *pivot = sq.at + k * sq.stride;
    size_t count = 0;
    for (size_t j = k + 1; j < sq.n; j++) {
        sq.listed[count] = j;
        count += pivot[j] != 0.0;
    }
    return count;
}

static void reduce_stretch(double *restrict row, const double *restrict pivot, size_t count, double m)
{
    for (size_t j = 0; j < count; j++) {
        double old = row[j], new = old - m * pivot[j];
        row[j] = pivot[j] == 0.0 ? old : new;
    }
}

static void reduce_listed(double *restrict row, const double *restrict pivot, const size_t *listed, size_t count, double m)
{
    for (size_t t = 0; t < count; t++)
        row[listed[t]] -= m * pivot[listed[t]];
}

static void reduce_row(size_t i, size_t k, double m, size_t count)
{
    double *row = sq.at + i * sq.stride, *pivot = sq.at + k * sq.stride;
    sq.updates += count;
    sq.right[i] -= m * sq.right[k];
    if (count == 0)
        return;
    size_t first = sq.listed[0], span = sq.listed[count - 1] + 1 - first;
    if (span <= 4 * count)
        reduce_stretch(row + first, pivot + first, span, m);
    else
        reduce_listed(row, pivot, sq.listed, count, m);
}

static int step(size_t k)
{
    size_t p = largest(k);
    sq.pivots[k] = p + 1;
    exchange(k, p);
    double pivot = sq.at[k * sq.stride + k];
    if (fabs(pivot) < LEAST_PIVOT)
        return 13;
    size_t count = list_pivot_row(k);
    for (size_t i = k + 1; i < sq.n; i++) {
        double *entry = sq.at + i * sq.stride + k;
        if (*entry == 0.0)
            continue;
        *entry /= pivot;
        if (*entry != 0.0)
            reduce_row(i, k, *entry, count);
    }
    return 0;
}

static void back(double *x)
{
    for (size_t i = sq.n; i-- > 0;) {
        const double *row = sq.at + i * sq.stride;
        double rest = sq.right[i];
        for (size_t j = i + 1; j < sq.n; j++)
            if (row[j] != 0.0)
                rest -= row[j] * x[j];
        x[i] = rest / row[i];
    }
}

/* A place that is not finite stays so through exchanges, updates and quotients, and what is subtracted from it in the right side or the
   solution likewise. */
static int all_finite(const double *numbers, size_t count)
{
    int bad = 0;
    for (size_t q = 0; q < count; q++)
        bad |= numbers[q] - numbers[q] != 0.0;
    return !bad;
}

static int solve(const struct pattern *p, double *x)
{
    lay_out(p);
    sq.updates = 0;
    for (size_t k = 0; k < sq.n; k++)
        if (step(k))
            return 13;
    back(x);
    return all_finite(sq.at, sq.n * sq.stride) && all_finite(sq.right, sq.n) && all_finite(x, sq.n) ? 0 : 14;
}

size_t square_updates(void) { return sq.updates; }
const size_t *square_pivots(void) { return sq.pivots; }

const struct solver square_solver = {"square in C", prepare, solve, release};
