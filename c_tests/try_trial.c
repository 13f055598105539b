#include "try_trial.h"

#include <stdio.h>

score total;

static void wrong(const char *call, const char *what)
{
    total.wrong++;
    printf("system %zu, %s: %s\n", total.system, call, what);
}

static void check_answer(const char *call, dlm_answer answer, dlm_answer expected)
{
    char what[120];
    if (answer.refusal == expected.refusal && answer.step == expected.step)
        total.seen[answer.refusal]++;
    else {
        snprintf(what, sizeof what, "answer %d step %zu, expected %d step %zu", (int)answer.refusal, answer.step, (int)expected.refusal,
                 expected.step);
        wrong(call, what);
    }
}

void check_stores(const char *call, const char *fault)
{
    if (fault != NULL)
        wrong(call, fault);
}

static uint64_t digest_of_pattern(const trial *t)
{
    return digest_numbers(digest_numbers(0, t->starts), t->columns);
}

static uint64_t digest_of_inputs(const trial *t)
{
    const dlm_plan *plan = &t->plan;
    uint64_t digest = digest_of_pattern(t);
    digest = digest_numbers(digest_numbers(digest_numbers(digest, plan->l_subs), plan->l_starts), plan->l_slots);
    digest = digest_numbers(digest_numbers(digest_numbers(digest, plan->u_subs), plan->u_starts), plan->u_slots);
    return digest_numbers(digest_reals(digest_reals(digest, t->values), t->right), t->rows);
}

static uint64_t digest_of_results(const trial *t)
{
    const dlm_factor *factor = &t->factor;
    uint64_t digest = digest_reals(digest_reals(factor->updates, factor->l), factor->u);
    return digest_numbers(digest_reals(digest_reals(digest, factor->d), factor->x), factor->pivots);
}

void try_plan(trial *t, plain_plan *plain)
{
    dlm_answer expected = expected_of_plan(t, plain);
    dlm_pattern pattern = trial_pattern(t);
    uint64_t before = digest_of_pattern(t);
    dlm_answer answer;
    dirty_plan(&t->plan);
    dirty_work(&t->work);
    answer = dlm_make_plan(&pattern, &t->plan, &t->work);
    check_answer("plan", answer, expected);
    check_stores("plan", fault_in_plan(t, expected, plain));
    check_stores("plan", fault_in_work(&t->work, 0));
    check_stores("plan", digest_of_pattern(t) == before ? NULL : "an input is changed");
    total.planned += expected.refusal == DLM_NONE;
    total.planned_tall += expected.refusal == DLM_NONE && t->height > t->n;
}

void try_verify(trial *t, const plain_plan *plain)
{
    dlm_answer expected = expected_of_verify(t, plain);
    dlm_pattern pattern = trial_pattern(t);
    uint64_t before = digest_of_inputs(t);
    dirty_work(&t->work);
    check_answer("verify", dlm_verify_plan(&pattern, &t->plan, &t->work), expected);
    check_stores("verify", fault_in_work(&t->work, 0));
    check_stores("verify", digest_of_inputs(t) == before ? NULL : "an input is changed");
}

static dlm_answer run_trial(trial *t)
{
    dlm_pattern pattern = trial_pattern(t);
    dlm_system system = trial_system(t);
    dirty_work(&t->work);
    dirty_factor(&t->factor);
    if (t->listed)
        return dlm_run_listed(&pattern, &t->plan, &system, t->rows.at, t->rows.length, t->extent, &t->factor, &t->work);
    return dlm_run_largest(&pattern, &t->plan, &system, t->extent, &t->factor, &t->work);
}

static int has_row_above(const trial *t, const plain_run *run)
{
    size_t k;
    for (k = 1; k <= t->n; k++)
        if (run->pivots[k] > t->n)
            return 1;
    return 0;
}

static void count_finished(const trial *t, const plain_run *run)
{
    total.finished[(t->listed ? 2 : 0) + (t->extent.cut != 0 ? 1 : 0)]++;
    total.passed_over += run->passed_over > 0;
    total.tall[t->listed] += t->height > t->n;
    total.above[t->listed] += has_row_above(t, run) != 0;
}

void try_run(trial *t, const plain_plan *plain)
{
    static plain_run run;
    dlm_answer expected = expected_of_run(t, plain, &run);
    uint64_t before = digest_of_inputs(t);
    uint64_t results;
    check_answer("run", run_trial(t), expected);
    check_stores("run", fault_in_run(t, expected, plain, &run));
    check_stores("run", fault_in_work(&t->work, 1));
    results = digest_of_results(t);
    check_answer("second run", run_trial(t), expected);
    check_stores("second run", fault_in_work(&t->work, 1));
    check_stores("second run", digest_of_results(t) == results ? NULL : "bits differ from the first run's");
    check_stores("run", digest_of_inputs(t) == before ? NULL : "an input is changed");
    if (expected.refusal == DLM_NONE)
        count_finished(t, &run);
    total.by_limit[t->listed] += expected.refusal == DLM_NO_PIVOT && run.by_limit;
}
