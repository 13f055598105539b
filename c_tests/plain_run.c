/* The reference of document 01, with the limit of document 02's ticket 14 and the row count of its ticket 9: elimination on "the full rectangle of that
   many rows and n columns" of double. To be compiled with -ffp-contract=off: "the product is rounded once, then the difference". Zero means +0 or
   -0, which is what == says. */
#include "plain.h"

#include <math.h>
#include <string.h>

static void load(const dlm_pattern *pattern, const dlm_system *system, plain_run *run)
{
    size_t i;
    size_t place;
    memset(run, 0, sizeof *run);
    for (i = 1; i <= pattern->height; i++) {
        for (place = pattern->starts[i - 1]; place < pattern->starts[i]; place++)
            run->rectangle[i][pattern->columns[place]] = system->values[place];
        run->x[i] = system->right[i - 1];
    }
}

static int serves(double entry)
{
    return fabs(entry) >= PLAIN_LEAST_PIVOT;
}

/* The row of the largest magnitude in column k among those that serve, the lowest if equal; 0 if none does. */
static size_t largest_row(const plain_run *run, size_t height, size_t k)
{
    size_t i;
    size_t best = 0;
    double magnitude = 0;
    for (i = k; i <= height; i++) {
        if (serves(run->rectangle[i][k]) && fabs(run->rectangle[i][k]) > magnitude) {
            magnitude = fabs(run->rectangle[i][k]);
            best = i;
        }
    }
    return best;
}

/* One of the rows that serve and have at least this magnitude; 0 if there is none. */
static size_t random_row(const plain_run *run, size_t height, size_t k, double least, size_t (*draw)(size_t))
{
    size_t i;
    size_t found = 0;
    size_t chosen = 0;
    for (i = k; i <= height; i++)
        if (serves(run->rectangle[i][k]) && fabs(run->rectangle[i][k]) >= least && draw(++found) == 0)
            chosen = i;
    return chosen;
}

/* Where no row serves, the largest is row 0 of the rectangle, which is not used and holds zeros. */
static size_t chosen_row(const plain_run *run, size_t height, size_t k, plain_choice choice, const size_t *rows, size_t (*draw)(size_t))
{
    switch (choice) {
    case BY_LIST: return rows[k - 1];
    case AT_RANDOM: return random_row(run, height, k, 0, draw);
    case NEAR_LARGEST: return random_row(run, height, k, fabs(run->rectangle[largest_row(run, height, k)][k]) / 2, draw);
    default: return largest_row(run, height, k);
    }
}

/* Whether some row from `from` to `to` has an entry in column k that is not zero and does not serve. */
static int has_faint(const plain_run *run, size_t from, size_t to, size_t k)
{
    size_t i;
    for (i = from; i <= to; i++)
        if (run->rectangle[i][k] != 0 && !serves(run->rectangle[i][k]))
            return 1;
    return 0;
}

/* Columns k to n and the right side; earlier multipliers stay. */
static void exchange(plain_run *run, size_t n, size_t k, size_t p)
{
    size_t j;
    double kept = run->x[k];
    run->x[k] = run->x[p];
    run->x[p] = kept;
    for (j = k; j <= n; j++) {
        kept = run->rectangle[k][j];
        run->rectangle[k][j] = run->rectangle[p][j];
        run->rectangle[p][j] = kept;
    }
}

/* place - m * u through `place`; whether product and difference are finite. */
static int subtract(double *place, double m, double u)
{
    double product = m * u;
    *place = *place - product;
    return isfinite(product) && isfinite(*place);
}

/* Row i below the pivot row, whose entry in column k is not zero. Whether all results are finite. */
static int reduce_row(plain_run *run, size_t n, size_t k, size_t i)
{
    size_t j;
    double m = run->rectangle[i][k] / run->rectangle[k][k];
    run->rectangle[i][k] = m;
    if (!isfinite(m))
        return 0;
    if (m == 0)
        return 1;
    for (j = k + 1; j <= n; j++) {
        if (run->rectangle[k][j] == 0)
            continue;
        if (!subtract(&run->rectangle[i][j], m, run->rectangle[k][j]))
            return 0;
        run->updates++;
    }
    return subtract(&run->x[i], m, run->x[k]);
}

/* The refusal's number, or 0. */
static size_t step(plain_run *run, size_t n, size_t height, size_t k, size_t p)
{
    size_t i;
    if (p == 0 || !serves(run->rectangle[p][k]))
        return 13;
    exchange(run, n, k, p);
    run->pivots[k] = p;
    for (i = k + 1; i <= height; i++)
        if (run->rectangle[i][k] != 0 && !reduce_row(run, n, k, i))
            return 14;
    return 0;
}

/* Whether all results of row i are finite. */
static int solve_row(plain_run *run, size_t n, size_t i)
{
    size_t j;
    for (j = i + 1; j <= n; j++)
        if (run->rectangle[i][j] != 0 && !subtract(&run->x[i], run->rectangle[i][j], run->x[j]))
            return 0;
    run->x[i] = run->x[i] / run->rectangle[i][i];
    return isfinite(run->x[i]);
}

void plain_eliminate(const dlm_pattern *pattern, const dlm_system *system, plain_choice choice, const size_t *rows, size_t (*draw)(size_t),
                     dlm_extent extent, plain_run *run)
{
    size_t n = pattern->n;
    size_t height = pattern->height;
    size_t steps = extent.cut != 0 ? extent.steps : n;
    size_t k;
    load(pattern, system, run);
    for (k = 1; k <= steps; k++) {
        size_t p = chosen_row(run, height, k, choice, rows, draw);
        int faint = has_faint(run, k, height, k);
        int asked_faint = choice == BY_LIST ? has_faint(run, p, p, k) : faint;
        size_t number = step(run, n, height, k, p);
        run->by_limit = number == 13 && asked_faint;
        run->passed_over += number != 13 && faint;
        if (number != 0) {
            run->answer = plain_answer(number, k);
            return;
        }
    }
    for (k = n; extent.cut == 0 && k > 0; k--) {
        if (!solve_row(run, n, k)) {
            run->answer = plain_answer(14, k);
            return;
        }
    }
}
