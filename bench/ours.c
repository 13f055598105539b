#include "ours.h"

#include "calls.h"

#include <stdio.h>
#include <stdlib.h>
#include <string.h>

#define MOST 1024
#define LEND(store) o->store.at, o->store.length
/* squares: as many rows as columns */
#define LEND_PATTERN MOST, o->pattern->n, o->pattern->n, o->pattern->starts, o->pattern->n + 1, o->pattern->columns, o->pattern->entries
#define LEND_PLAN LEND(l_subs), LEND(l_starts), LEND(l_slots), LEND(u_subs), LEND(u_starts), LEND(u_slots)
#define LEND_WORK LEND(row_heads), LEND(row_links), LEND(set_heads), LEND(set_links), LEND(list), LEND(spare)

static struct sizes sizes_room(size_t length) { return (struct sizes){room(length, sizeof(size_t)), length}; }
static struct numbers numbers_room(size_t length) { return (struct numbers){room(length, sizeof(double)), length}; }

size_t ours_plan(struct ours *o)
{
    size_t answer[2 + COUNTS];
    size_t number = dalumiveth_plan(LEND_PATTERN, LEND_PLAN, LEND_WORK, answer, 2 + COUNTS);
    memcpy(o->counts.at, answer + 2, COUNTS * sizeof(size_t));
    return number;
}

size_t ours_verify(struct ours *o)
{
    size_t answer[2];
    return dalumiveth_verify(LEND_PATTERN, LEND(counts), LEND_PLAN, LEND_WORK, answer, 2);
}

size_t ours_run(struct ours *o)
{
    const struct pattern *p = o->pattern;
    size_t answer[3];
    /* By the largest entry: no list is read, so the columns stand in for one. */
    size_t number = dalumiveth_run(LEND_PATTERN, LEND(counts), LEND_PLAN, p->values, p->entries, p->right, p->n, 0, p->columns, 0, 0, 0,
                                   LEND(l), LEND(u), LEND(d), LEND(x), LEND(pivots), LEND_WORK, LEND(copy), LEND(dense), answer, 3);
    o->updates = answer[2];
    return number;
}

static void work_room(struct ours *o, size_t n)
{
    o->row_heads = sizes_room(n + 1);
    o->row_links = sizes_room(n + 1);
    o->set_heads = sizes_room(n + 1);
    o->set_links = sizes_room(n + 1);
    o->list = sizes_room(n);
    o->spare = sizes_room(n);
    o->copy = numbers_room(n);
    o->dense = numbers_room(n + 1);
}

static void plan_room(struct ours *o, size_t n)
{
    o->counts = sizes_room(COUNTS);
    o->l_subs = sizes_room(n * (n - 1) / 2); /* enough for every pattern */
    o->u_subs = sizes_room(n * (n - 1) / 2);
    o->l_starts = sizes_room(n);
    o->u_starts = sizes_room(n);
    o->l_slots = sizes_room(n + 1);
    o->u_slots = sizes_room(n + 1);
}

static void result_room(struct ours *o, size_t n)
{
    o->l = numbers_room(o->counts.at[L_SLOTS]);
    o->u = numbers_room(o->counts.at[U_SLOTS]);
    o->d = numbers_room(n);
    o->x = numbers_room(n);
    o->pivots = sizes_room(n);
}

void ours_prepare(struct ours *o, const struct pattern *p)
{
    o->pattern = p;
    plan_room(o, p->n);
    work_room(o, p->n);
    size_t number = ours_plan(o);
    if (number != 0) {
        fprintf(stderr, "bench: a pattern was refused with %zu\n", number);
        exit(1);
    }
    o->l_subs.length = o->counts.at[L_SUBSCRIPTS];
    o->u_subs.length = o->counts.at[U_SUBSCRIPTS];
    result_room(o, p->n);
}

void ours_release(struct ours *o)
{
    size_t *sizes[] = {o->counts.at,    o->l_subs.at,    o->l_starts.at,  o->l_slots.at,   o->u_subs.at, o->u_starts.at, o->u_slots.at,
                       o->row_heads.at, o->row_links.at, o->set_heads.at, o->set_links.at, o->list.at,   o->spare.at,    o->pivots.at};
    double *numbers[] = {o->l.at, o->u.at, o->d.at, o->x.at, o->copy.at, o->dense.at};
    for (size_t i = 0; i < sizeof sizes / sizeof *sizes; i++)
        free(sizes[i]);
    for (size_t i = 0; i < sizeof numbers / sizeof *numbers; i++)
        free(numbers[i]);
}
