/* What documents 01 and 02 say that a trial's calls answer, and whether the stores are what they must be afterwards. */
#include "trial.h"

#include <math.h>

/* ------------------------------------------------------------------ answers */

/* 6, in the lengths that docs/CALLS.md fixes. */
static int plan_lengths_are_right(const trial *t)
{
    const dlm_plan *plan = &t->plan;
    const dlm_work *work = &t->work;
    size_t n = t->n;
    size_t height = t->height;
    return plan->l_starts.length == n && plan->u_starts.length == n && plan->l_slots.length == n + 1 && plan->u_slots.length == n + 1 &&
           work->row_heads.length == height + 1 && work->row_links.length == height + 1 && work->set_heads.length == height + 1 &&
           work->set_links.length == height + 1 && work->list.length == height && work->spare.length == height;
}

dlm_answer expected_of_plan(const trial *t, plain_plan *plain)
{
    dlm_pattern pattern = trial_pattern(t);
    dlm_answer answer = plain_judge_pattern(&pattern);
    if (answer.refusal != DLM_NONE)
        return answer;
    plain_make_plan(&pattern, plain);
    if (!plan_lengths_are_right(t))
        return plain_answer(6, 0);
    return plain_judge_room(plain, t->plan.l_subs.length, t->plan.u_subs.length);
}

/* Whether the starts and the used subscripts of a side are the plain plan's. */
static int side_agrees(const plain_side *side, size_t n, dlm_numbers subs, dlm_numbers starts, dlm_numbers slots)
{
    size_t place;
    if (subs.length < side->end[n] || slots.at[0] != 0)
        return 0;
    for (place = 0; place < side->end[n]; place++)
        if (subs.at[place] != side->subs[place])
            return 0;
    for (place = 1; place <= n; place++)
        if (starts.at[place - 1] != side->start[place] || slots.at[place] != side->slots[place])
            return 0;
    return 1;
}

static int counts_agree(const dlm_counts *counts, const plain_plan *plain)
{
    size_t n = plain->n;
    return counts->n == n && counts->height == plain->height && counts->entries == plain->entries &&
           counts->l_subscripts == plain->l.end[n] && counts->u_subscripts == plain->u.end[n] && counts->l_slots == plain->l.slots[n] &&
           counts->u_slots == plain->u.slots[n] && counts->reads == plain->reads;
}

static int plan_agrees(const dlm_plan *plan, const plain_plan *plain)
{
    return counts_agree(&plan->counts, plain) && side_agrees(&plain->l, plain->n, plan->l_subs, plan->l_starts, plan->l_slots) &&
           side_agrees(&plain->u, plain->n, plan->u_subs, plan->u_starts, plan->u_slots);
}

dlm_answer expected_of_verify(const trial *t, const plain_plan *plain)
{
    dlm_pattern pattern = trial_pattern(t);
    dlm_answer answer = plain_judge_pattern(&pattern);
    if (answer.refusal != DLM_NONE)
        return answer;
    if (!plan_lengths_are_right(t))
        return plain_answer(6, 0);
    return plain_answer(plan_agrees(&t->plan, plain) ? 0 : 9, 0);
}

static int lending_is_right(const trial *t, const plain_plan *plain)
{
    size_t n = t->n;
    return t->values.length == t->columns.length && t->right.length == t->height && t->factor.x.length == t->height &&
           t->factor.pivots.length == n && t->factor.d.length == n && t->factor.l.length >= plain->l.slots[n] &&
           t->factor.u.length >= plain->u.slots[n];
}

static int all_finite(dlm_reals store)
{
    size_t place;
    for (place = 0; place < store.length; place++)
        if (!isfinite(store.at[place]))
            return 0;
    return 1;
}

static int rows_are_right(const trial *t)
{
    size_t k;
    if (t->extent.cut != 0 && t->extent.steps > t->n)
        return 0;
    if (!t->listed)
        return 1;
    if (t->rows.length != t->n)
        return 0;
    for (k = 1; k <= t->n; k++)
        if (t->rows.at[k - 1] < k || t->rows.at[k - 1] > t->height)
            return 0;
    return 1;
}

dlm_answer expected_of_run(const trial *t, const plain_plan *plain, plain_run *run)
{
    dlm_pattern pattern = trial_pattern(t);
    dlm_system system = trial_system(t);
    dlm_answer answer = expected_of_verify(t, plain);
    if (answer.refusal != DLM_NONE && answer.refusal != DLM_OTHER_PLAN)
        return answer;
    if (t->work.copy.length != t->height || t->work.dense.length != t->height + 1)
        return plain_answer(6, 0);
    if (t->extent.cut == 0 && t->height > t->n)
        return plain_answer(26, 0);
    if (answer.refusal != DLM_NONE)
        return answer;
    if (!lending_is_right(t, plain))
        return plain_answer(10, 0);
    if (!all_finite(t->values) || !all_finite(t->right))
        return plain_answer(11, 0);
    if (!rows_are_right(t))
        return plain_answer(12, 0);
    plain_eliminate(&pattern, &system, t->listed ? BY_LIST : BY_LARGEST, t->rows.at, NULL, t->extent, run);
    return run->answer;
}

/* ------------------------------------------------------------------ stores */

static int plan_is_zero(const dlm_plan *plan)
{
    const dlm_counts *counts = &plan->counts;
    return counts->n == 0 && counts->height == 0 && counts->entries == 0 && counts->l_subscripts == 0 && counts->u_subscripts == 0 &&
           counts->l_slots == 0 && counts->u_slots == 0 && counts->reads == 0 && numbers_are_zero(plan->l_subs, 0) &&
           numbers_are_zero(plan->l_starts, 0) && numbers_are_zero(plan->l_slots, 0) && numbers_are_zero(plan->u_subs, 0) &&
           numbers_are_zero(plan->u_starts, 0) && numbers_are_zero(plan->u_slots, 0);
}

const char *fault_in_plan(const trial *t, dlm_answer answer, const plain_plan *plain)
{
    if (answer.refusal != DLM_NONE)
        return plan_is_zero(&t->plan) ? NULL : "a plan store is not zero after a refusal";
    if (!plan_agrees(&t->plan, plain))
        return "the plan is not the plain one";
    if (!numbers_are_zero(t->plan.l_subs, plain->l.end[t->n]) || !numbers_are_zero(t->plan.u_subs, plain->u.end[t->n]))
        return "a subscript store is not zero behind the used ones";
    return NULL;
}

const char *fault_in_work(const dlm_work *work, int with_reals)
{
    if (!numbers_are_zero(work->row_heads, 0) || !numbers_are_zero(work->row_links, 0) || !numbers_are_zero(work->set_heads, 0) ||
        !numbers_are_zero(work->set_links, 0) || !numbers_are_zero(work->list, 0) || !numbers_are_zero(work->spare, 0))
        return "a work store of numbers is not zero";
    if (with_reals && (!reals_are_zero(work->copy, 0) || !reals_are_zero(work->dense, 0)))
        return "a work store of reals is not zero";
    return NULL;
}

static int factor_is_zero(const dlm_factor *factor)
{
    return factor->updates == 0 && reals_are_zero(factor->l, 0) && reals_are_zero(factor->u, 0) && reals_are_zero(factor->d, 0) &&
           reals_are_zero(factor->x, 0) && numbers_are_zero(factor->pivots, 0);
}

/* Slots of a side, step after step: below the diagonal the rectangle is read by columns, above it by rows. */
static int slots_agree(const plain_side *side, size_t n, int upper, const plain_run *run, dlm_reals slots)
{
    size_t k;
    size_t i;
    size_t slot = 0;
    for (k = 1; k <= n; k++)
        for (i = k + 1; i <= side->last; i++)
            if (side->has[k][i] &&
                bits_of_real(slots.at[slot++]) != bits_of_real(upper ? run->rectangle[k][i] : run->rectangle[i][k]))
                return 0;
    return reals_are_zero(slots, slot);
}

/* Every place as the header finds it; a place without a slot is +0 there, so it must be +0 in the rectangle. */
static int places_agree(const trial *t, const plain_run *run)
{
    size_t i;
    size_t j;
    for (i = 1; i <= t->height; i++)
        for (j = 1; j <= t->n; j++)
            if (bits_of_real(dlm_number_at(&t->plan, &t->factor, i, j)) != bits_of_real(run->rectangle[i][j]))
                return 0;
    return 1;
}

static int steps_agree(const trial *t, const plain_run *run)
{
    size_t k;
    for (k = 1; k <= t->n; k++)
        if (bits_of_real(t->factor.d.at[k - 1]) != bits_of_real(run->rectangle[k][k]) || t->factor.pivots.at[k - 1] != run->pivots[k])
            return 0;
    return 1;
}

static int solution_agrees(const trial *t, const plain_run *run)
{
    size_t i;
    for (i = 1; i <= t->height; i++)
        if (bits_of_real(t->factor.x.at[i - 1]) != bits_of_real(run->x[i]))
            return 0;
    return 1;
}

const char *fault_in_run(const trial *t, dlm_answer answer, const plain_plan *plain, const plain_run *run)
{
    if (answer.refusal != DLM_NONE)
        return factor_is_zero(&t->factor) ? NULL : "a result store is not zero after a refusal";
    if (t->factor.updates != run->updates)
        return "updates differ from the reference's";
    if (!slots_agree(&plain->l, t->n, 0, run, t->factor.l) || !slots_agree(&plain->u, t->n, 1, run, t->factor.u))
        return "slots differ from the reference's places";
    if (!steps_agree(t, run))
        return "diagonal or pivot rows differ from the reference's";
    if (!solution_agrees(t, run))
        return "the solution or the right side that is left differs from the reference's";
    if (!places_agree(t, run))
        return "a place found by dlm_number_at differs from the reference's";
    return NULL;
}
