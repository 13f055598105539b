/* Random systems and the ways in which they are spoilt. */
#include "trial.h"

#include <string.h>

dlm_pattern trial_pattern(const trial *t)
{
    dlm_pattern pattern = dlm_tall_pattern_of(t->n, t->height, t->starts.at, t->columns.at, t->columns.length);
    pattern.starts_length = t->starts.length;
    return pattern;
}

dlm_system trial_system(const trial *t)
{
    return dlm_system_of(t->values.at, t->values.length, t->right.at, t->right.length);
}

/* ------------------------------------------------------------------ making */

size_t draw_tall_height(size_t n)
{
    switch (draw(3)) {
    case 0: return n + 1;
    case 1: return 2 * n;
    default: return n + 1 + draw(n);
    }
}

size_t draw_height(size_t n)
{
    return draw(2) == 0 ? n : draw_tall_height(n);
}

/* Kinds of numbers; a system has one or two of them. */
enum { SMALL_WHOLE, POWERS_OF_TWO, ORDINARY, SUBNORMAL, NEAR_OVERFLOW, AROUND_LIMIT, ANY_FINITE, KINDS };

/* The bits of numbers around 2^-1022, the least magnitude of a pivot: it and its two neighbours on either side; its small multiples, whose
   differences are 0 or serve; quarters of it, whose differences are often faint; anything below its double. */
static uint64_t bits_around_limit(uint64_t fraction)
{
    static const uint64_t limit = UINT64_C(1) << 52;
    switch (draw(4)) {
    case 0: return limit - 2 + draw(5);
    case 1: return bits_of_real((double)(1 + draw(4)) * PLAIN_LEAST_PIVOT);
    case 2: return bits_of_real((double)(1 + draw(8)) * PLAIN_LEAST_PIVOT / 4);
    default: return (uint64_t)draw(2) << 52 | fraction;
    }
}

static double random_real(size_t kind)
{
    uint64_t sign = draw_bits() << 63;
    uint64_t fraction = draw_bits() >> 12;
    switch (kind) {
    case SMALL_WHOLE: /* ties, exact cancellation, zeros of both signs */
        return real_of_bits(bits_of_real(draw(12) == 0 ? 0 : (double)(1 + draw(3))) | sign);
    case POWERS_OF_TWO:
        return real_of_bits((uint64_t)(1013 + draw(21)) << 52 | sign);
    case ORDINARY:
        return real_of_bits((uint64_t)(1013 + draw(21)) << 52 | fraction | sign);
    case SUBNORMAL:
        return real_of_bits((draw(2) == 0 ? fraction : fraction >> draw(52)) | sign);
    case AROUND_LIMIT:
        return real_of_bits(bits_around_limit(fraction) | sign);
    case NEAR_OVERFLOW:
        return real_of_bits((uint64_t)(2030 + draw(17)) << 52 | fraction | sign);
    default:
        return real_of_bits((uint64_t)draw(2047) << 52 | fraction | sign);
    }
}

static double random_zero(void)
{
    return real_of_bits(draw_bits() << 63);
}

/* The diagonal, if the row has one, and each other place with one chance in `one_in`, from `end` on. Returns the new end. */
static size_t make_row(trial *t, size_t i, size_t one_in, size_t end)
{
    size_t j;
    for (j = 1; j <= t->size; j++)
        if (i == j || draw(one_in) == 0)
            t->columns.at[end++] = j;
    return end;
}

/* The places of an earlier row once more: a field seen by two observers. */
static size_t repeat_places(trial *t, size_t i, size_t end)
{
    size_t row = 1 + draw(i - 1);
    size_t place;
    for (place = t->starts.at[row - 1]; place < t->starts.at[row]; place++)
        t->columns.at[end++] = t->columns.at[place];
    return end;
}

/* A row above n may be empty. */
static size_t make_row_above(trial *t, size_t i, size_t one_in, size_t end)
{
    switch (draw(4)) {
    case 0: return end;
    case 1: return repeat_places(t, i, end);
    default: return make_row(t, i, one_in, end);
    }
}

static void make_pattern(trial *t, size_t one_in)
{
    size_t i;
    resize_numbers(&t->starts, t->tall + 1);
    resize_numbers(&t->columns, t->size * t->tall);
    t->starts.at[0] = 0;
    for (i = 1; i <= t->tall; i++) {
        size_t end = t->starts.at[i - 1];
        t->starts.at[i] = i <= t->size ? make_row(t, i, one_in, end) : make_row_above(t, i, one_in, end);
    }
    resize_numbers(&t->columns, t->starts.at[t->tall]);
}

/* Any density, but for large rectangles: they would pass 16,384 entries, or leave columns without a pivot. */
static size_t draw_one_in(const trial *t)
{
    size_t least = t->tall > t->size ? t->size * t->tall / (DLM_MOST_ENTRIES / 2) : 0;
    return 1 + least + draw(t->size < 8 ? 3 : least > 8 ? least : t->size);
}

static void zero_a_column(trial *t)
{
    size_t column = 1 + draw(t->size);
    size_t place;
    for (place = 0; place < t->values.length; place++)
        if (t->columns.at[place] == column)
            t->values.at[place] = random_zero();
}

/* Two rows with the same numbers from a place on cancel exactly where their columns agree. */
static void repeat_a_row(trial *t)
{
    size_t from = t->starts.at[draw(t->tall)];
    size_t to = t->starts.at[draw(t->tall)];
    size_t place;
    for (place = 0; place < t->size && from + place < t->values.length && to + place < t->values.length; place++)
        t->values.at[to + place] = t->values.at[from + place];
}

static void make_values(trial *t, size_t kind, size_t other)
{
    int no_right_side = draw(8) == 0; /* zeros of both signs */
    size_t place;
    resize_reals(&t->values, t->columns.length);
    resize_reals(&t->right, t->tall);
    for (place = 0; place < t->values.length; place++)
        t->values.at[place] = random_real(draw(2) == 0 ? kind : other);
    for (place = 0; place < t->right.length; place++)
        t->right.at[place] = no_right_side ? random_zero() : random_real(draw(2) == 0 ? kind : other);
    if (draw(4) == 0)
        repeat_a_row(t);
    if (t->fault[13])
        zero_a_column(t);
}

static void make_work(dlm_work *work, size_t height)
{
    resize_numbers(&work->row_heads, height + 1);
    resize_numbers(&work->row_links, height + 1);
    resize_numbers(&work->set_heads, height + 1);
    resize_numbers(&work->set_links, height + 1);
    resize_numbers(&work->list, height);
    resize_numbers(&work->spare, height);
    resize_reals(&work->copy, height);
    resize_reals(&work->dense, height + 1);
}

static void make_plan_stores(dlm_plan *plan, size_t n, size_t height)
{
    resize_numbers(&plan->l_subs, n * (n - 1) / 2 + n * (height - n));
    resize_numbers(&plan->l_starts, n);
    resize_numbers(&plan->l_slots, n + 1);
    resize_numbers(&plan->u_subs, n * (n - 1) / 2);
    resize_numbers(&plan->u_starts, n);
    resize_numbers(&plan->u_slots, n + 1);
}

/* None, one, or two that test the order of the table: any two, or two of which one is checked just before the other. */
static void choose_faults(trial *t)
{
    static const unsigned char all[] = {1, 25, 2, 3, 4, 5, 6, 7, 8, 26, 9, 10, 11, 12, 13, 14};
    static const unsigned char pairs[][2] = {{1, 25}, {25, 2}, {7, 8}, {6, 26}, {26, 9}, {6, 9}, {9, 10}, {10, 11}, {11, 12}, {12, 13}};
    size_t pair = draw(sizeof pairs / sizeof pairs[0]);
    size_t way = draw(10);
    if (way < 5)
        return;
    if (way == 9) {
        t->fault[pairs[pair][0]] = t->fault[pairs[pair][1]] = 1;
        return;
    }
    t->fault[all[draw(sizeof all)]] = 1;
    if (way == 8)
        t->fault[all[draw(sizeof all)]] = 1;
}

static void make_system(trial *t, size_t n, size_t height, size_t kind, size_t other)
{
    t->size = t->n = n;
    t->tall = t->height = height;
    make_pattern(t, draw_one_in(t));
    make_values(t, kind, other);
    make_work(&t->work, height);
    make_plan_stores(&t->plan, n, height);
}

/* Subnormal numbers get whole ones beside them: alone they have no pivot. */
static void make_mixed_system(trial *t, size_t n, size_t height)
{
    size_t kind = t->fault[14] ? (size_t)NEAR_OVERFLOW : draw(4) == 0 ? draw(KINDS) : draw(4);
    make_system(t, n, height, kind, draw(3) == 0 || kind == SUBNORMAL ? (size_t)SMALL_WHOLE : kind);
}

void make_trial(trial *t, size_t n, size_t height)
{
    memset(t, 0, sizeof *t);
    choose_faults(t);
    make_mixed_system(t, n, t->fault[26] && height == n ? n + 1 : height);
}

void make_good_trial(trial *t, size_t n, size_t height)
{
    memset(t, 0, sizeof *t);
    make_mixed_system(t, n, height);
}

/* Whole numbers beside them: what is faint is passed over, and quotients by what is not come near overflow or pass it. */
void make_limit_trial(trial *t, size_t n, size_t height)
{
    memset(t, 0, sizeof *t);
    t->around_limit = 1;
    make_system(t, n, height, AROUND_LIMIT, draw(3) == 0 ? (size_t)SMALL_WHOLE : (size_t)AROUND_LIMIT);
}

void make_given_trial(trial *t, const dlm_pattern *pattern, const dlm_system *system)
{
    memset(t, 0, sizeof *t);
    t->size = t->n = pattern->n;
    t->tall = t->height = pattern->height;
    resize_numbers(&t->starts, pattern->starts_length);
    resize_numbers(&t->columns, pattern->entries);
    resize_reals(&t->values, system->values_length);
    resize_reals(&t->right, system->right_length);
    memcpy(t->starts.at, pattern->starts, pattern->starts_length * sizeof *pattern->starts);
    memcpy(t->columns.at, pattern->columns, pattern->entries * sizeof *pattern->columns);
    memcpy(t->values.at, system->values, system->values_length * sizeof *system->values);
    memcpy(t->right.at, system->right, system->right_length * sizeof *system->right);
    make_work(&t->work, t->height);
    make_plan_stores(&t->plan, t->n, t->height);
}

void free_trial(trial *t)
{
    dlm_numbers_free(&t->starts);
    dlm_numbers_free(&t->columns);
    dlm_numbers_free(&t->rows);
    dlm_reals_free(&t->values);
    dlm_reals_free(&t->right);
    dlm_plan_free(&t->plan);
    dlm_work_free(&t->work);
    dlm_factor_free(&t->factor);
}

/* Any row that 12 lets pass at step k. */
static size_t draw_row(const trial *t, size_t k)
{
    return k + draw(t->tall - k + 1);
}

void make_rows(trial *t, plain_choice choice)
{
    static plain_run run;
    dlm_pattern pattern = trial_pattern(t);
    dlm_system system = trial_system(t);
    size_t k;
    plain_eliminate(&pattern, &system, choice, NULL, draw, dlm_cut(t->size), &run);
    resize_numbers(&t->rows, t->size);
    for (k = 1; k <= t->size; k++)
        t->rows.at[k - 1] = run.pivots[k] != 0 ? run.pivots[k] : draw_row(t, k);
}

static dlm_extent draw_extent(const trial *t)
{
    if (t->fault[26])
        return dlm_whole();
    if (t->tall > t->size)
        return dlm_cut(draw(2) == 0 ? t->size : draw(t->size + 1));
    return draw(3) == 0 ? dlm_cut(draw(t->size + 1)) : dlm_whole();
}

void make_run(trial *t, const plain_plan *plain)
{
    size_t k;
    make_rows(t, AT_RANDOM);
    for (k = 1; k <= t->size; k++)
        if (draw(t->around_limit ? 6 : 60) == 0)
            t->rows.at[k - 1] = draw_row(t, k);
    t->listed = draw(2) == 0;
    t->extent = draw_extent(t);
    make_results(t, plain);
}

void make_results(trial *t, const plain_plan *plain)
{
    resize_reals(&t->factor.l, plain->l.slots[t->size] + draw(3));
    resize_reals(&t->factor.u, plain->u.slots[t->size] + draw(3));
    resize_reals(&t->factor.d, t->size);
    resize_reals(&t->factor.x, t->tall);
    resize_numbers(&t->factor.pivots, t->size);
}

/* ------------------------------------------------------------------ dirt */

void dirty_work(dlm_work *work)
{
    dirty_numbers(work->row_heads);
    dirty_numbers(work->row_links);
    dirty_numbers(work->set_heads);
    dirty_numbers(work->set_links);
    dirty_numbers(work->list);
    dirty_numbers(work->spare);
    dirty_reals(work->copy);
    dirty_reals(work->dense);
}

void dirty_plan(dlm_plan *plan)
{
    dirty_numbers(plan->l_subs);
    dirty_numbers(plan->l_starts);
    dirty_numbers(plan->l_slots);
    dirty_numbers(plan->u_subs);
    dirty_numbers(plan->u_starts);
    dirty_numbers(plan->u_slots);
    plan->counts.reads = draw(100);
}

void dirty_factor(dlm_factor *factor)
{
    dirty_reals(factor->l);
    dirty_reals(factor->u);
    dirty_reals(factor->d);
    dirty_reals(factor->x);
    dirty_numbers(factor->pivots);
    factor->updates = draw(100);
}

/* ------------------------------------------------------------------ spoiling */

/* One place more, one less, or none. */
static size_t another_length(size_t length)
{
    size_t way = draw(3);
    if (length == 0 || way == 0)
        return length + 1;
    return way == 1 ? length - 1 : 0;
}

/* The same, but where rows and columns are not as many, often the length that the other count would give. */
static size_t other_length(const trial *t, size_t length)
{
    if (t->tall == t->size || draw(2) == 0)
        return another_length(length);
    if (length == t->tall || length == t->size)
        return t->tall + t->size - length;
    return length == t->tall + 1 ? t->size + 1 : t->tall + 1;
}

static void spoil_limits(trial *t)
{
    static const size_t sizes[] = {0, 1025, 4096, SIZE_MAX};
    if (draw(4) == 0)
        resize_numbers(&t->columns, DLM_MOST_ENTRIES + 1 + draw(3));
    else
        t->n = sizes[draw(4)];
}

/* A row less than n, none, one too many or far too many; the row starts stay, or follow. */
static void spoil_height(trial *t)
{
    size_t heights[4];
    heights[0] = t->size - 1;
    heights[1] = 0;
    heights[2] = DLM_MOST_HEIGHT + 1;
    heights[3] = SIZE_MAX;
    t->height = heights[draw(4)];
    if (t->height != SIZE_MAX && draw(2) == 0)
        resize_numbers(&t->starts, t->height + 1);
}

static void spoil_starts(trial *t)
{
    size_t way = draw(4);
    size_t place = draw(t->tall + 1);
    if (way == 0)
        resize_numbers(&t->starts, other_length(t, t->starts.length));
    else if (way == 1)
        t->starts.at[0] = 1;
    else if (way == 2)
        t->starts.at[t->tall] = draw(2) == 0 ? t->columns.length + 1 : t->columns.length - 1;
    else
        t->starts.at[place] = draw(2) == 0 ? SIZE_MAX : 0;
}

/* Takes out the diagonal of a row that needs it. */
static void spoil_diagonal(trial *t)
{
    size_t row = 1 + draw(t->size);
    size_t place = t->starts.at[row - 1];
    size_t i;
    while (t->columns.at[place] != row)
        place++;
    for (; place + 1 < t->columns.length; place++)
        t->columns.at[place] = t->columns.at[place + 1];
    for (i = row; i <= t->tall; i++)
        t->starts.at[i]--;
    resize_numbers(&t->columns, t->columns.length - 1);
    resize_reals(&t->values, t->values.length - 1);
}

static void spoil_column(trial *t)
{
    size_t place = draw(t->columns.length);
    t->columns.at[place] = draw(2) == 0 ? 0 : draw(2) == 0 ? t->size + 1 : SIZE_MAX;
}

/* Two columns in the wrong order or twice the same, if they stand in one row. */
static void spoil_order(trial *t)
{
    size_t place = draw(t->columns.length);
    size_t next = place + 1 < t->columns.length ? place + 1 : place;
    size_t column = t->columns.at[place];
    t->columns.at[place] = t->columns.at[next];
    t->columns.at[next] = draw(2) == 0 ? column : t->columns.at[next];
}

/* The last in the table first: each still finds the starts and columns as it needs them. One field without its diagonal has no column
   left. */
void spoil_pattern(trial *t)
{
    if (t->fault[5])
        spoil_diagonal(t);
    if (t->fault[4] && t->columns.length > 0)
        spoil_order(t);
    if (t->fault[3] && t->columns.length > 0)
        spoil_column(t);
    if (t->fault[2])
        spoil_starts(t);
    if (t->fault[25])
        spoil_height(t);
    if (t->fault[1])
        spoil_limits(t);
}

/* One of the stores whose length is fixed: of the first ten, which planning takes, or of all twelve. */
static void spoil_a_length(trial *t, size_t which)
{
    dlm_numbers *fixed[10];
    fixed[0] = &t->work.row_heads;
    fixed[1] = &t->work.row_links;
    fixed[2] = &t->work.set_heads;
    fixed[3] = &t->work.set_links;
    fixed[4] = &t->work.list;
    fixed[5] = &t->work.spare;
    fixed[6] = &t->plan.l_starts;
    fixed[7] = &t->plan.l_slots;
    fixed[8] = &t->plan.u_starts;
    fixed[9] = &t->plan.u_slots;
    if (which < 10)
        resize_numbers(fixed[which], other_length(t, fixed[which]->length));
    else if (which == 10)
        resize_reals(&t->work.copy, other_length(t, t->work.copy.length));
    else
        resize_reals(&t->work.dense, other_length(t, t->work.dense.length));
}

void spoil_plan_stores(trial *t, const plain_plan *plain)
{
    size_t l_used = plain->l.end[t->size];
    size_t u_used = plain->u.end[t->size];
    resize_numbers(&t->plan.l_subs, t->fault[7] && l_used > 0 ? draw(l_used) : l_used + draw(4));
    resize_numbers(&t->plan.u_subs, t->fault[8] && u_used > 0 ? draw(u_used) : u_used + draw(4));
    if (t->fault[7] && t->fault[8]) { /* no room at all: at the first step with both lists L comes first */
        resize_numbers(&t->plan.l_subs, 0);
        resize_numbers(&t->plan.u_subs, 0);
    }
    if (t->fault[6] && !t->fault[9] && draw(2) == 0)
        spoil_a_length(t, draw(10));
}

/* One more or one less. */
static void spoil_a_number(dlm_numbers store)
{
    size_t place;
    if (store.length == 0)
        return;
    place = draw(store.length);
    store.at[place] += draw(2) == 0 ? 1 : SIZE_MAX;
}

/* A count, a start, a subscript, or a subscript store that is too short. */
static void spoil_plan(trial *t)
{
    dlm_plan *plan = &t->plan;
    size_t numbers[DLM_COUNTS];
    dlm_numbers counts = {numbers, DLM_COUNTS};
    switch (draw(8)) {
    case 0: spoil_a_number(plan->l_subs); break;
    case 1: spoil_a_number(plan->l_starts); break;
    case 2: spoil_a_number(plan->l_slots); break;
    case 3: spoil_a_number(plan->u_subs); break;
    case 4: spoil_a_number(plan->u_starts); break;
    case 5: spoil_a_number(plan->u_slots); break;
    case 6: resize_numbers(&plan->l_subs, plan->l_subs.length / 2); break;
    default:
        dlm_counts_out(&plan->counts, numbers);
        spoil_a_number(counts);
        plan->counts = dlm_counts_in(numbers);
    }
}

static void spoil_lending(trial *t)
{
    switch (draw(7)) {
    case 0: resize_reals(&t->values, another_length(t->values.length)); break;
    case 1: resize_reals(&t->right, other_length(t, t->right.length)); break;
    case 2: resize_reals(&t->factor.x, other_length(t, t->factor.x.length)); break;
    case 3: resize_reals(&t->factor.d, other_length(t, t->factor.d.length)); break;
    case 4: resize_numbers(&t->factor.pivots, other_length(t, t->factor.pivots.length)); break;
    case 5: resize_reals(&t->factor.l, t->plan.counts.l_slots > 0 ? draw(t->plan.counts.l_slots) : 0); break;
    default: resize_reals(&t->factor.u, t->plan.counts.u_slots > 0 ? draw(t->plan.counts.u_slots) : 0);
    }
}

static void spoil_rows(trial *t)
{
    size_t k = 1 + draw(t->size);
    size_t way = draw(4);
    t->listed = 1;
    if (way == 0)
        resize_numbers(&t->rows, other_length(t, t->rows.length));
    else if (way == 1)
        t->rows.at[k - 1] = k - 1;
    else if (way == 2)
        t->rows.at[k - 1] = draw(2) == 0 ? t->tall + 1 : SIZE_MAX;
    else
        t->extent = dlm_cut(draw(2) == 0 ? t->size + 1 : SIZE_MAX);
}

/* An infinity or a NaN, of either sign. */
static void spoil_a_real(dlm_reals store)
{
    size_t place;
    uint64_t sign = draw_bits() << 63;
    uint64_t fraction = draw(2) == 0 ? draw_bits() >> 12 : 0;
    if (store.length == 0)
        return;
    place = draw(store.length);
    store.at[place] = real_of_bits(UINT64_C(0x7FF0000000000000) | sign | fraction);
}

void spoil_run(trial *t)
{
    if (t->fault[6]) /* with 9, and often with 26, a store that verifying does not know, and running has to look at before it says 9 or 26 */
        spoil_a_length(t, t->fault[9] || (t->fault[26] && draw(2) == 0) ? 10 + draw(2) : draw(12));
    if (t->fault[9])
        spoil_plan(t);
    if (t->fault[11])
        spoil_a_real(draw(2) == 0 ? t->values : t->right);
    if (t->fault[10])
        spoil_lending(t);
    if (t->fault[12])
        spoil_rows(t);
}
