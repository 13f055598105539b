/* The plan of document 01 (report CS-84-43, sections 2 and 3.1) with shared subscripts by document 02, ticket 5, and more rows than columns by ticket 9;
   refusals 1, 25, 2 to 5, 7 and 8. */
#include "plain.h"

#include <string.h>

dlm_answer plain_answer(size_t number, size_t step)
{
    dlm_answer answer;
    answer.refusal = (dlm_refusal)number;
    answer.step = step;
    return answer;
}

static int starts_are_well_formed(const dlm_pattern *pattern)
{
    size_t i;
    if (pattern->starts_length != pattern->height + 1 || pattern->starts[0] != 0)
        return 0;
    for (i = 1; i <= pattern->height; i++)
        if (pattern->starts[i] < pattern->starts[i - 1])
            return 0;
    return pattern->starts[pattern->height] == pattern->entries;
}

/* 3 before 4 at an entry, 5 at the row's end. "Rows above n need no diagonal and may be empty". */
static size_t fault_of_row(const dlm_pattern *pattern, size_t i)
{
    size_t place;
    int diagonal = 0;
    for (place = pattern->starts[i - 1]; place < pattern->starts[i]; place++) {
        size_t column = pattern->columns[place];
        if (column == 0 || column > pattern->n)
            return 3;
        if (place > pattern->starts[i - 1] && pattern->columns[place - 1] >= column)
            return 4;
        if (column == i)
            diagonal = 1;
    }
    return diagonal || i > pattern->n ? 0 : 5;
}

dlm_answer plain_judge_pattern(const dlm_pattern *pattern)
{
    size_t i;
    if (pattern->n == 0 || pattern->n > 1024 || pattern->entries > 16384)
        return plain_answer(1, 0);
    if (pattern->height < pattern->n || pattern->height > 2048)
        return plain_answer(25, 0);
    if (!starts_are_well_formed(pattern))
        return plain_answer(2, 0);
    for (i = 1; i <= pattern->height; i++) {
        size_t fault = fault_of_row(pattern, i);
        if (fault != 0)
            return plain_answer(fault, 0);
    }
    return plain_answer(0, 0);
}

/* The sets that planning grows beside the lists. */
typedef struct growing {
    unsigned char met[PLAIN_TALL + 1];
    unsigned char s[PLAIN_MOST + 1][PLAIN_MOST + 1]; /* s[r][k]: k belongs to S_r */
} growing;

static int row_has(const dlm_pattern *pattern, size_t i, size_t column)
{
    size_t place;
    for (place = pattern->starts[i - 1]; place < pattern->starts[i]; place++)
        if (pattern->columns[place] == column)
            return 1;
    return 0;
}

/* Each unmet row of C_k joins L_k, its columns join U_k. Returns how many rows were first met. */
static size_t meet_rows(const dlm_pattern *pattern, size_t k, growing *sets, plain_plan *plan)
{
    size_t i;
    size_t place;
    size_t first_met = 0;
    for (i = 1; i <= plan->height; i++) {
        if (!row_has(pattern, i, k))
            continue;
        plan->reads++; /* i as a member of C_k */
        if (sets->met[i])
            continue;
        sets->met[i] = 1;
        first_met++;
        plan->l.has[k][i] = 1;
        for (place = pattern->starts[i - 1]; place < pattern->starts[i]; place++) {
            plan->u.has[k][pattern->columns[place]] = 1;
            plan->reads++;
        }
    }
    return first_met;
}

/* The members of the list of step l that are k or more join that of step k; all members are read. */
static void join_list(plain_side *side, size_t l, size_t k, size_t *reads)
{
    size_t i;
    for (i = 1; i <= side->last; i++) {
        if (!side->has[l][i])
            continue;
        ++*reads;
        if (i >= k)
            side->has[k][i] = 1;
    }
}

/* For each l in S_k. Returns how many there are, the last one through `sole`. */
static size_t join_set(size_t k, const growing *sets, plain_plan *plan, size_t *sole)
{
    size_t l;
    size_t members = 0;
    for (l = 1; l < k; l++) {
        if (!sets->s[k][l])
            continue;
        members++;
        *sole = l;
        join_list(&plan->l, l, k, &plan->reads);
        join_list(&plan->u, l, k, &plan->reads);
    }
    return members;
}

/* Writes the members beyond k and returns how many there are. */
static size_t kept_list(const plain_side *side, size_t k, size_t *list)
{
    size_t i;
    size_t count = 0;
    for (i = k + 1; i <= side->last; i++)
        if (side->has[k][i])
            list[count++] = i;
    return count;
}

/* The longest t for which the last t subscripts of the whole store, whichever list put them there, are the first t of the new list. */
static size_t longest_shared_end(const plain_side *side, size_t k, const size_t *list, size_t count)
{
    size_t end = side->end[k - 1];
    size_t t;
    for (t = end < count ? end : count; t > 0; t--)
        if (memcmp(side->subs + end - t, list, t * sizeof *list) == 0)
            return t;
    return 0;
}

/* `sole` is l if S_k is the one step l and no row was first met at k, else 0. */
static void share_subscripts(plain_side *side, size_t k, size_t sole)
{
    size_t list[PLAIN_TALL];
    size_t count = kept_list(side, k, list);
    size_t end = side->end[k - 1];
    size_t t = 0;
    side->kept[k] = count;
    side->slots[k] = side->slots[k - 1] + count;
    side->end[k] = end;
    if (count == 0) {
        side->start[k] = end;
    } else if (sole != 0) {
        side->start[k] = side->start[sole] + 1;
    } else {
        t = longest_shared_end(side, k, list, count);
        side->start[k] = end - t;
        memcpy(side->subs + end, list + t, (count - t) * sizeof *list);
        side->end[k] = end + count - t;
    }
}

/* If L_k has more than one member, k joins S_r, r being the least member of U_k above k: no S "if U_k has no further member". */
static void hand_on(size_t k, const plain_plan *plan, growing *sets)
{
    size_t r;
    if (plan->l.kept[k] == 0)
        return;
    for (r = k + 1; r <= plan->n; r++) {
        if (plan->u.has[k][r]) {
            sets->s[r][k] = 1;
            return;
        }
    }
}

void plain_make_plan(const dlm_pattern *pattern, plain_plan *plan)
{
    static growing sets;
    size_t k;
    memset(&sets, 0, sizeof sets);
    memset(plan, 0, sizeof *plan);
    plan->n = plan->u.last = pattern->n;
    plan->height = plan->l.last = pattern->height;
    plan->entries = pattern->entries;
    for (k = 1; k <= plan->n; k++) {
        size_t sole = 0;
        size_t first_met = meet_rows(pattern, k, &sets, plan);
        size_t members = join_set(k, &sets, plan, &sole);
        if (first_met != 0 || members != 1)
            sole = 0;
        share_subscripts(&plan->l, k, sole);
        share_subscripts(&plan->u, k, sole);
        hand_on(k, plan, &sets);
    }
}

dlm_answer plain_judge_room(const plain_plan *plan, size_t l_room, size_t u_room)
{
    size_t k;
    for (k = 1; k <= plan->n; k++) {
        if (plan->l.end[k] > l_room)
            return plain_answer(7, k);
        if (plan->u.end[k] > u_room)
            return plain_answer(8, k);
    }
    return plain_answer(0, 0);
}
