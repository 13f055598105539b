/* The four fields of document 01: planned once, run by the largest entry, then run by a row list that is refused.

     make -C examples check

   Each field's offset is tied to its neighbours' by one equation:

       2 a1        +   a3         = 3
              a2         +   a4   = 2
       4 a1        + 4 a3         = 8
            2 a2   +   a3 + 4 a4  = 7                                                                                             */
#include "dalumiveth.h"

#include <stdio.h>

enum { FIELDS = 4, ENTRIES = 9 };

/* Compressed rows as C programs keep them, columns from 0. */
static const int row_starts[FIELDS + 1] = {0, 2, 4, 6, 9};
static const int columns_from_0[ENTRIES] = {0, 2, 1, 3, 0, 2, 1, 2, 3};
static const double values[ENTRIES] = {2, 1, 1, 1, 4, 4, 2, 1, 4};
static const double right_side[FIELDS] = {3, 2, 8, 7};

/* A refusal is an answer, not a crash: it has a number, for 7, 8, 13 and 14 a step, and a sentence. */
static void print_refusal(const char *call, dlm_answer answer)
{
    printf("%s refused %d, step %zu: %s\n", call, (int)answer.refusal, answer.step, dlm_sentence((size_t)answer.refusal));
}

static void print_plan(const dlm_counts *counts)
{
    printf("plan %zu %zu %zu %zu %zu %zu %zu\n", counts->n, counts->entries, counts->l_subscripts, counts->u_subscripts, counts->l_slots,
           counts->u_slots, counts->reads);
}

static void print_factor(const dlm_factor *factor)
{
    size_t field;
    printf("rows");
    for (field = 1; field <= factor->pivots.length; field++)
        printf(" %zu", factor->pivots.at[field - 1]);
    printf("\n");
    for (field = 1; field <= factor->x.length; field++)
        printf("offset %zu %.6f\n", field, factor->x.at[field - 1]);
    printf("updates %zu\n", factor->updates);
}

/* Both runs use the same plan and the same stores. Returns whether the run by the largest entry finished. */
static int run_twice(const dlm_pattern *pattern, const dlm_plan *plan, dlm_factor *factor, dlm_work *work)
{
    static const size_t list[FIELDS] = {2, 2, 3, 4}; /* row 2 has no entry in column 1, so step 1 has no pivot */
    dlm_system system = dlm_system_of(values, ENTRIES, right_side, FIELDS);
    dlm_answer answer = dlm_run_largest(pattern, plan, &system, dlm_whole(), factor, work);
    if (answer.refusal != DLM_NONE) {
        print_refusal("run", answer);
        return 0;
    }
    print_factor(factor);
    answer = dlm_run_listed(pattern, plan, &system, list, FIELDS, dlm_whole(), factor, work);
    if (answer.refusal != DLM_NONE)
        print_refusal("list 2 2 3 4", answer);
    return 1;
}

/* Plans, then lends the runs as many slots as the plan counts. */
static int plan_and_run(const dlm_pattern *pattern, dlm_plan *plan, dlm_work *work)
{
    dlm_factor factor;
    dlm_sizes sizes;
    int finished;
    dlm_answer answer = dlm_make_plan(pattern, plan, work);
    if (answer.refusal != DLM_NONE) {
        print_refusal("plan", answer);
        return 0;
    }
    print_plan(&plan->counts);
    sizes = dlm_sizes_for(pattern->n, pattern->entries, &plan->counts);
    if (!dlm_factor_allocate(&factor, &sizes))
        return 0;
    finished = run_twice(pattern, plan, &factor, work);
    dlm_factor_free(&factor);
    return finished;
}

int main(void)
{
    size_t starts[FIELDS + 1];
    size_t columns[ENTRIES];
    dlm_pattern pattern = dlm_pattern_from_csr_int(FIELDS, row_starts, columns_from_0, ENTRIES, starts, columns);
    dlm_sizes sizes = dlm_sizes_for(FIELDS, ENTRIES, NULL);
    dlm_plan plan;
    dlm_work work;
    int finished;
    if (!dlm_plan_allocate(&plan, &sizes))
        return EXIT_FAILURE;
    if (!dlm_work_allocate(&work, &sizes)) {
        dlm_plan_free(&plan);
        return EXIT_FAILURE;
    }
    finished = plan_and_run(&pattern, &plan, &work);
    dlm_work_free(&work);
    dlm_plan_free(&plan);
    return finished ? EXIT_SUCCESS : EXIT_FAILURE;
}
