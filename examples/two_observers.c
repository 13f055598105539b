/* Three fields seen by two observers: five equations, planned once and cut after three steps. The offsets follow by back substitution, and what is
   left of the right side says by how much the other equations miss them.

     make -C examples check

       4 a1 +   a2          =  6.5
              4 a2 +   a3   = 11
         a1        + 4 a3   = 13
       8 a1 + 2 a2          = 12     the second observer; the first of his equations has twice the weight
              4 a2 +   a3   = 11                                                                                                  */
#include "dalumiveth.h"

#include <stdio.h>

enum { FIELDS = 3, ROWS = 5, ENTRIES = 10 };

static const size_t starts[ROWS + 1] = {0, 2, 4, 6, 8, 10};
static const size_t columns[ENTRIES] = {1, 2, 2, 3, 1, 3, 1, 2, 2, 3};
static const double values[ENTRIES] = {4, 1, 4, 1, 1, 4, 8, 2, 4, 1};
static const double right_side[ROWS] = {6.5, 11, 13, 12, 11};

static void print_refusal(const char *call, dlm_answer answer)
{
    printf("%s refused %d, step %zu: %s\n", call, (int)answer.refusal, answer.step, dlm_sentence((size_t)answer.refusal));
}

/* The first n rows are triangular: row k has its diagonal and, slot after slot, the columns of the list of step k of U. */
static void substitute_back(const dlm_plan *plan, const dlm_factor *factor, double *offsets)
{
    size_t k;
    size_t slot;
    for (k = plan->counts.n; k > 0; k--) {
        const size_t *list = plan->u_subs.at + plan->u_starts.at[k - 1];
        size_t first = plan->u_slots.at[k - 1];
        double rest = factor->x.at[k - 1];
        for (slot = first; slot < plan->u_slots.at[k]; slot++)
            rest -= factor->u.at[slot] * offsets[list[slot - first] - 1];
        offsets[k - 1] = rest / factor->d.at[k - 1];
    }
}

/* Which equation stands in each row after the exchanges of the steps. */
static void follow_rows(const dlm_factor *factor, size_t *equations)
{
    size_t k;
    size_t row;
    for (row = 1; row <= factor->x.length; row++)
        equations[row - 1] = row;
    for (k = 1; k <= factor->pivots.length; k++) {
        size_t pivot = factor->pivots.at[k - 1];
        size_t kept = equations[k - 1];
        equations[k - 1] = equations[pivot - 1];
        equations[pivot - 1] = kept;
    }
}

/* The offsets meet the equations that served as pivot rows; each of the others misses by what is left in its row. */
static void print_adjusted(const dlm_plan *plan, const dlm_factor *factor)
{
    double offsets[FIELDS];
    size_t equations[ROWS];
    size_t row;
    substitute_back(plan, factor, offsets);
    follow_rows(factor, equations);
    for (row = 1; row <= FIELDS; row++)
        printf("offset %zu %.6f\n", row, offsets[row - 1]);
    for (row = FIELDS + 1; row <= ROWS; row++)
        printf("equation %zu misses by %.6f\n", equations[row - 1], factor->x.at[row - 1]);
}

static int adjust(const dlm_pattern *pattern, dlm_plan *plan, dlm_factor *factor, dlm_work *work)
{
    dlm_system system = dlm_system_of(values, ENTRIES, right_side, ROWS);
    dlm_answer answer = dlm_make_plan(pattern, plan, work);
    if (answer.refusal == DLM_NONE)
        answer = dlm_run_largest(pattern, plan, &system, dlm_cut(FIELDS), factor, work);
    if (answer.refusal != DLM_NONE) {
        print_refusal("adjusting", answer);
        return 0;
    }
    print_adjusted(plan, factor);
    answer = dlm_run_largest(pattern, plan, &system, dlm_whole(), factor, work);
    if (answer.refusal != DLM_NONE)
        print_refusal("solving", answer); /* more rows than columns: no offsets meet all of them */
    return 1;
}

int main(void)
{
    dlm_pattern pattern = dlm_tall_pattern_of(FIELDS, ROWS, starts, columns, ENTRIES);
    dlm_sizes sizes = dlm_tall_sizes_for(FIELDS, ROWS, ENTRIES, NULL); /* what is always enough */
    dlm_plan plan;
    dlm_work work;
    dlm_factor factor;
    int made = dlm_plan_allocate(&plan, &sizes) & dlm_work_allocate(&work, &sizes) & dlm_factor_allocate(&factor, &sizes);
    int adjusted = made && adjust(&pattern, &plan, &factor, &work);
    dlm_factor_free(&factor);
    dlm_work_free(&work);
    dlm_plan_free(&plan);
    return adjusted ? EXIT_SUCCESS : EXIT_FAILURE;
}
