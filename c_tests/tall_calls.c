/* Fixed calls with more rows than columns (document 02, ticket 9): a plan and a run that were worked out elsewhere, the row count at its bounds, rows above
   n, lengths by n and by the row count, 25 and 26 and their order among the others, 12 at its new bound; any numbers in the stores before,
   zeros after refusals. */
#include "expect.h"
#include "trial.h"

#include <math.h>
#include <string.h>

/* Three fields in six rows, {1,3}, {2}, {3}, {1,2}, {} and {2,3}: no row above 3 has a diagonal, and row 5 is empty. */
enum { FIELDS = 3, ROWS = 6, ENTRIES = 8 };

static const size_t starts[ROWS + 1] = {0, 2, 3, 4, 6, 6, 8};
static const size_t columns[ENTRIES] = {1, 3, 2, 3, 1, 2, 2, 3};
static const double values[ENTRIES] = {1, 1.5, 1, 1, 2, 2, 4, 2};
static const double right_side[ROWS] = {3, 2, 1, 8, 7, 10};

/* ------------------------------------------------------------------ calls on dirty stores */

static int is(dlm_answer answer, size_t number, size_t step)
{
    return (size_t)answer.refusal == number && answer.step == step;
}

static void expect_plan(trial *t, size_t number, const char *what)
{
    dlm_pattern pattern = trial_pattern(t);
    dlm_answer answer;
    dirty_plan(&t->plan);
    dirty_work(&t->work);
    answer = dlm_make_plan(&pattern, &t->plan, &t->work);
    expect(is(answer, number, 0), what);
    expect(number == 0 || fault_in_plan(t, answer, NULL) == NULL, "and the plan is zeros");
    expect(fault_in_work(&t->work, 0) == NULL, "and the work stores");
}

static void expect_verify(trial *t, size_t number, const char *what)
{
    dlm_pattern pattern = trial_pattern(t);
    dirty_work(&t->work);
    expect(is(dlm_verify_plan(&pattern, &t->plan, &t->work), number, 0), what);
    expect(fault_in_work(&t->work, 0) == NULL, "and the work stores are zeros");
}

static void expect_run(trial *t, size_t number, size_t step, const char *what)
{
    dlm_pattern pattern = trial_pattern(t);
    dlm_system system = trial_system(t);
    dlm_answer answer;
    dirty_factor(&t->factor);
    dirty_work(&t->work);
    if (t->listed)
        answer = dlm_run_listed(&pattern, &t->plan, &system, t->rows.at, t->rows.length, t->extent, &t->factor, &t->work);
    else
        answer = dlm_run_largest(&pattern, &t->plan, &system, t->extent, &t->factor, &t->work);
    expect(is(answer, number, step), what);
    expect(number == 0 || fault_in_run(t, answer, NULL, NULL) == NULL, "and the results are zeros");
    expect(fault_in_work(&t->work, 1) == NULL, "and the work stores");
}

/* ------------------------------------------------------------------ trials */

/* A pattern whose values and right side are ones, with every store of its length. */
static void make_ones(trial *t, size_t n, size_t height, const size_t *own_starts, const size_t *own_columns)
{
    static double ones[DLM_MOST_ENTRIES];
    dlm_pattern pattern = dlm_tall_pattern_of(n, height, own_starts, own_columns, own_starts[height]);
    dlm_system system = dlm_system_of(ones, pattern.entries, ones, height);
    dlm_sizes sizes = dlm_tall_sizes_for(n, height, pattern.entries, NULL);
    size_t place;
    for (place = 0; place < DLM_MOST_ENTRIES; place++)
        ones[place] = 1;
    make_given_trial(t, &pattern, &system);
    resize_reals(&t->factor.l, sizes.l);
    resize_reals(&t->factor.u, sizes.u);
    resize_reals(&t->factor.d, sizes.d);
    resize_reals(&t->factor.x, sizes.x);
    resize_numbers(&t->factor.pivots, sizes.pivots);
    resize_numbers(&t->rows, sizes.rows);
}

/* The six rows, planned; to be run by the largest entry, cut to n steps. */
static void make_six_rows(trial *t)
{
    make_ones(t, FIELDS, ROWS, starts, columns);
    memcpy(t->values.at, values, sizeof values);
    memcpy(t->right.at, right_side, sizeof right_side);
    t->extent = dlm_cut(FIELDS);
    expect_plan(t, 0, "the six rows are planned");
}

/* The diagonal of n fields, and empty rows above it. */
static void make_diagonal(trial *t, size_t n, size_t height)
{
    static size_t own_starts[DLM_MOST_HEIGHT + 1], own_columns[DLM_MOST_N];
    size_t i;
    for (i = 1; i <= height; i++) {
        own_starts[i] = i <= n ? i : n;
        if (i <= n)
            own_columns[i - 1] = i;
    }
    make_ones(t, n, height, own_starts, own_columns);
}

/* ------------------------------------------------------------------ a plan and a run */

static int same_numbers(dlm_numbers store, const size_t *numbers, size_t count)
{
    return store.length >= count && memcmp(store.at, numbers, count * sizeof *numbers) == 0;
}

static int same_reals(dlm_reals store, const double *reals, size_t count)
{
    return store.length >= count && memcmp(store.at, reals, count * sizeof *reals) == 0;
}

/* L lists [4], [4,6], [4,6]; U lists [2,3], [3], []: step 3 has further rows and no further column, and joins no S. */
static void test_plan(void)
{
    static const size_t counts[DLM_COUNTS] = {FIELDS, ROWS, ENTRIES, 2, 2, 5, 3, 26};
    size_t told[DLM_COUNTS];
    trial t;
    make_six_rows(&t);
    dlm_counts_out(&t.plan.counts, told);
    expect(memcmp(told, counts, sizeof counts) == 0, "the eight counts");
    expect(same_numbers(t.plan.l_subs, (const size_t[]){4, 6}, 2) && same_numbers(t.plan.l_starts, (const size_t[]){0, 0, 0}, 3), "L's store");
    expect(same_numbers(t.plan.u_subs, (const size_t[]){2, 3}, 2) && same_numbers(t.plan.u_starts, (const size_t[]){0, 1, 2}, 3), "U's store");
    expect(same_numbers(t.plan.l_slots, (const size_t[]){0, 1, 3, 5}, 4) && same_numbers(t.plan.u_slots, (const size_t[]){0, 2, 3, 3}, 4), "slots");
    expect_verify(&t, 0, "the plan is the pattern's");
    free_trial(&t);
}

/* The pivot rows are 4, 6 and 4; what is left of the right side in rows 4 to 6 is the misfit. */
static void test_reduced(void)
{
    trial t;
    make_six_rows(&t);
    expect_run(&t, 0, 0, "the six rows are run");
    expect(t.factor.updates == 3 && same_numbers(t.factor.pivots, (const size_t[]){4, 6, 4}, 3), "pivot rows above n");
    expect(same_reals(t.factor.d, (const double[]){2, 4, 2}, 3) && same_reals(t.factor.u, (const double[]){2, 0, 2}, 3), "the triangle");
    expect(same_reals(t.factor.l, (const double[]){0.5, -0.25, 0.25, 0.5, -0.25}, 5), "multipliers in rows above n");
    expect(same_reals(t.factor.x, (const double[]){8, 10, 1.5, 0.25, 7, -0.125}, ROWS), "the right side of every row");
    expect(dlm_number_at(&t.plan, &t.factor, 6, 3) == -0.25 && dlm_number_at(&t.plan, &t.factor, 5, 3) == 0, "places in rows above n");
    expect(dlm_number_at(&t.plan, &t.factor, 7, 1) == 0 && dlm_number_at(&t.plan, &t.factor, 4, 4) == 0, "and outside the rectangle");
    t.extent = dlm_cut(0);
    expect_run(&t, 0, 0, "cut to no step");
    expect(same_reals(t.factor.x, right_side, ROWS) && dlm_number_at(&t.plan, &t.factor, 6, 2) == 4, "all is as it was loaded");
    free_trial(&t);
}

/* A zero that goes down keeps its sign, in L and in the right side. */
static void test_minus_zero(void)
{
    static const size_t own_starts[3] = {0, 1, 2};
    static const size_t own_columns[2] = {1, 1};
    trial t;
    make_ones(&t, 1, 2, own_starts, own_columns);
    t.values.at[0] = t.right.at[0] = -0.0;
    t.extent = dlm_cut(1);
    expect_plan(&t, 0, "one field in two rows is planned");
    expect_run(&t, 0, 0, "and run");
    expect(t.factor.pivots.at[0] == 2 && t.factor.d.at[0] == 1 && t.factor.updates == 0, "by its second row");
    expect(t.factor.l.at[0] == 0 && signbit(t.factor.l.at[0]) && t.factor.x.at[1] == 0 && signbit(t.factor.x.at[1]), "-0 stays -0");
    free_trial(&t);
}

/* With every place present L has as many slots as are always enough. */
static void test_room(void)
{
    static const size_t own_starts[6] = {0, 3, 6, 9, 12, 15};
    static const size_t own_columns[15] = {1, 2, 3, 1, 2, 3, 1, 2, 3, 1, 2, 3, 1, 2, 3};
    dlm_sizes sizes = dlm_tall_sizes_for(3, 5, 15, NULL);
    trial t;
    expect(sizes.l == 9 && sizes.l_subs == 9 && sizes.u == 3 && sizes.u_subs == 3, "n(n-1)/2 a side, and in L n for each row above n");
    make_ones(&t, 3, 5, own_starts, own_columns);
    expect_plan(&t, 0, "a full rectangle is planned");
    expect(t.plan.counts.l_slots == 9 && t.plan.counts.u_slots == 3, "with every slot");
    expect(t.plan.counts.l_subscripts == 4 && t.plan.counts.u_subscripts == 2, "and shared subscripts");
    free_trial(&t);
}

/* ------------------------------------------------------------------ the row count */

/* n to 2,048 rows are planned; one row less or more is 25. */
static void test_bounds(void)
{
    static const size_t sizes[] = {1, 2, 1023, 1024};
    size_t which;
    for (which = 0; which < sizeof sizes / sizeof sizes[0]; which++) {
        size_t n = sizes[which];
        trial t;
        make_diagonal(&t, n, n);
        expect_plan(&t, 0, "n rows are planned");
        t.height = n - 1;
        expect_plan(&t, 25, "one row less is 25");
        resize_numbers(&t.starts, n);
        expect_plan(&t, 25, "with as many row starts too");
        free_trial(&t);
        make_diagonal(&t, n, DLM_MOST_HEIGHT);
        expect_plan(&t, 0, "2,048 rows are planned");
        expect(t.plan.counts.height == DLM_MOST_HEIGHT && t.plan.counts.reads == 2 * n, "and empty rows are never met");
        t.height = DLM_MOST_HEIGHT + 1;
        expect_plan(&t, 25, "one row more is 25");
        resize_numbers(&t.starts, t.height + 1);
        expect_plan(&t, 25, "with as many row starts too");
        free_trial(&t);
    }
}

/* The calls that take a pattern, each with the number. */
static void expect_all(trial *t, size_t number, const char *what)
{
    expect_plan(t, number, what);
    expect_verify(t, number, what);
    expect_run(t, number, 0, what);
}

/* 25 after 1: n of 0 or above 1,024 and too many entries come first, whatever the row count is. */
static void test_height_after_limits(size_t height)
{
    trial t;
    make_six_rows(&t);
    t.height = height;
    expect_all(&t, 25, "a row count that is refused");
    t.n = 0;
    expect_all(&t, 1, "1 for no field");
    t.n = DLM_MOST_N + 1;
    expect_all(&t, 1, "1 for 1,025 fields");
    t.n = FIELDS;
    resize_numbers(&t.columns, DLM_MOST_ENTRIES + 1);
    expect_all(&t, 1, "1 for 16,385 entries");
    free_trial(&t);
}

/* 25 before 2 to 6: row starts, columns and stores may be anything. */
static void test_height_before_starts(size_t height)
{
    trial t;
    make_six_rows(&t);
    t.height = height;
    t.starts.at[0] = 1;
    expect_all(&t, 25, "25 before 2");
    resize_numbers(&t.starts, 0);
    expect_all(&t, 25, "25 before 2 without row starts");
    resize_numbers(&t.starts, FIELDS + 1);
    expect_all(&t, 25, "25 before 2 with row starts for n rows");
    t.columns.at[0] = 0;
    resize_numbers(&t.work.list, 0);
    resize_numbers(&t.plan.l_starts, 0);
    expect_all(&t, 25, "25 before 3 and 6");
    free_trial(&t);
}

static void test_height(void)
{
    static const size_t heights[] = {0, FIELDS - 1, DLM_MOST_HEIGHT + 1, 4096, SIZE_MAX};
    size_t which;
    for (which = 0; which < sizeof heights / sizeof heights[0]; which++) {
        test_height_after_limits(heights[which]);
        test_height_before_starts(heights[which]);
    }
}

/* ------------------------------------------------------------------ rows above n */

static void expect_faulty(size_t place, size_t column, size_t number, const char *what)
{
    trial t;
    make_six_rows(&t);
    t.columns.at[place] = column;
    expect_all(&t, number, what);
    free_trial(&t);
}

/* 3 and 4 are judged in every row, 5 in the first n; a row among these may not be empty. */
static void test_rows(void)
{
    trial t;
    expect_faulty(7, FIELDS + 1, 3, "a column above n is 3 in a row above n, though there is such a row");
    expect_faulty(7, 2, 4, "columns that do not ascend are 4 in a row above n");
    expect_faulty(6, 3, 4, "a column twice likewise");
    expect_faulty(4, 0, 3, "a column 0 likewise 3");
    expect_faulty(3, 2, 5, "row 3 without its diagonal is 5");
    make_six_rows(&t);
    t.starts.at[3] = 3;
    expect_all(&t, 5, "row 3 without an entry is 5");
    free_trial(&t);
    make_six_rows(&t);
    resize_numbers(&t.starts, FIELDS + 1);
    expect_all(&t, 2, "row starts for n rows are 2");
    t.starts.at[FIELDS] = ENTRIES;
    expect_all(&t, 2, "also where they end with the entries");
    free_trial(&t);
}

/* ------------------------------------------------------------------ lengths */

/* The stores of planning, those of n and n+1 places first. */
enum { BY_N = 4, STORES = 10 };

static dlm_numbers *store_of(trial *t, size_t which)
{
    dlm_numbers *all[STORES];
    all[0] = &t->plan.l_starts;
    all[1] = &t->plan.u_starts;
    all[2] = &t->plan.l_slots;
    all[3] = &t->plan.u_slots;
    all[4] = &t->work.list;
    all[5] = &t->work.spare;
    all[6] = &t->work.row_heads;
    all[7] = &t->work.row_links;
    all[8] = &t->work.set_heads;
    all[9] = &t->work.set_links;
    return all[which];
}

/* The length that a store would have by the other count: the row count for n, n for the row count. */
static size_t by_other_count(size_t which, size_t length)
{
    return which < BY_N ? length + ROWS - FIELDS : length + FIELDS - ROWS;
}

static void test_lengths(void)
{
    size_t which;
    for (which = 0; which < STORES; which++) {
        trial t;
        dlm_numbers *store = store_of(&t, which);
        size_t length;
        make_six_rows(&t);
        length = store->length;
        resize_numbers(store, by_other_count(which, length));
        expect_all(&t, 6, "a store whose length goes by the other count is 6");
        resize_numbers(store, length + 1);
        expect_all(&t, 6, "one place more is 6");
        resize_numbers(store, length - 1);
        expect_all(&t, 6, "one place less is 6");
        free_trial(&t);
    }
}

/* Those that a run alone takes. */
static void test_run_lengths(void)
{
    trial t;
    make_six_rows(&t);
    resize_reals(&t.work.copy, FIELDS);
    expect_run(&t, 6, 0, "6: `copy` by n");
    resize_reals(&t.work.copy, ROWS);
    resize_reals(&t.work.dense, FIELDS + 1);
    expect_run(&t, 6, 0, "6: `dense` by n");
    resize_reals(&t.work.dense, ROWS + 1);
    expect_run(&t, 0, 0, "both by the row count");
    resize_reals(&t.right, FIELDS);
    expect_run(&t, 10, 0, "10: right side by n");
    resize_reals(&t.right, ROWS);
    resize_reals(&t.factor.x, FIELDS);
    expect_run(&t, 10, 0, "10: solution by n");
    resize_reals(&t.factor.x, ROWS);
    resize_reals(&t.factor.d, ROWS);
    expect_run(&t, 10, 0, "10: diagonal by the row count");
    resize_reals(&t.factor.d, FIELDS);
    resize_numbers(&t.factor.pivots, ROWS);
    expect_run(&t, 10, 0, "10: pivot rows by the row count");
    resize_numbers(&t.factor.pivots, FIELDS);
    resize_reals(&t.factor.l, 4);
    expect_run(&t, 10, 0, "10: a slot of L too few");
    resize_reals(&t.factor.l, 5);
    expect_run(&t, 0, 0, "as many as planned");
    free_trial(&t);
}

/* ------------------------------------------------------------------ 9, 26 and 12 */

/* Each count one more and one less: 9, of the row count too. */
static void test_other_plans(void)
{
    size_t place, change;
    for (place = 0; place < DLM_COUNTS; place++) {
        for (change = 0; change < 2; change++) {
            size_t numbers[DLM_COUNTS];
            trial t;
            make_six_rows(&t);
            dlm_counts_out(&t.plan.counts, numbers);
            numbers[place] += change == 0 ? 1 : SIZE_MAX;
            t.plan.counts = dlm_counts_in(numbers);
            expect_verify(&t, 9, "another count is 9");
            expect_run(&t, 9, 0, "in a cut run too");
            t.extent = dlm_whole();
            expect_run(&t, 26, 0, "in a whole run 26 comes before it");
            free_trial(&t);
        }
    }
}

/* 26 whatever plan, values, list and results are lent. */
static void test_solving(void)
{
    trial t;
    make_six_rows(&t);
    t.extent = dlm_whole();
    expect_run(&t, 26, 0, "solving with more rows than n is 26");
    t.listed = 1;
    expect_run(&t, 26, 0, "by a list too, before 12");
    t.values.at[0] = INFINITY;
    expect_run(&t, 26, 0, "before 11");
    resize_reals(&t.right, FIELDS);
    expect_run(&t, 26, 0, "before 10");
    memset(t.plan.l_subs.at, 0, t.plan.l_subs.length * sizeof *t.plan.l_subs.at);
    expect_run(&t, 26, 0, "before 9: a subscript");
    resize_numbers(&t.plan.u_subs, 0);
    expect_run(&t, 26, 0, "before 9: no subscripts");
    resize_reals(&t.work.dense, FIELDS + 1);
    expect_run(&t, 6, 0, "after 6");
    t.columns.at[3] = 2;
    expect_run(&t, 5, 0, "after 5");
    t.height = FIELDS - 1;
    expect_run(&t, 25, 0, "after 25");
    free_trial(&t);
}

/* Cut to n steps it is no whole run; of as many rows as columns it may be whole. */
static void test_no_solving(void)
{
    size_t s;
    trial t;
    make_six_rows(&t);
    for (s = 0; s <= FIELDS; s++) {
        t.extent = dlm_cut(s);
        expect_run(&t, 0, 0, "a cut run is not 26");
    }
    free_trial(&t);
    make_diagonal(&t, FIELDS, FIELDS);
    t.extent = dlm_whole();
    expect_plan(&t, 0, "a square is planned");
    expect_run(&t, 0, 0, "and solved");
    expect(same_reals(t.factor.x, (const double[]){1, 1, 1}, FIELDS), "with its solution");
    free_trial(&t);
    make_diagonal(&t, FIELDS, FIELDS + 1);
    t.extent = dlm_whole();
    expect_plan(&t, 0, "one empty row more is planned");
    expect_run(&t, 26, 0, "and not solved");
    free_trial(&t);
}

static void expect_list(trial *t, size_t first, size_t second, size_t third, size_t number, size_t step, const char *what)
{
    t->rows.at[0] = first;
    t->rows.at[1] = second;
    t->rows.at[2] = third;
    expect_run(t, number, step, what);
}

/* p_k from k to the row count; the list's length and s keep n. */
static void test_lists(void)
{
    trial t;
    make_six_rows(&t);
    t.listed = 1;
    expect_list(&t, 4, 6, 6, 0, 0, "rows up to the row count");
    expect(same_numbers(t.factor.pivots, (const size_t[]){4, 6, 6}, 3), "are the pivot rows");
    expect_list(&t, 6, 2, 3, 13, 1, "a row above n without the entry is 13");
    expect_list(&t, 5, 2, 3, 13, 1, "an empty row likewise");
    expect_list(&t, 7, 2, 3, 12, 0, "a row above the row count is 12 at step 1");
    expect_list(&t, 1, 7, 3, 12, 0, "at step 2");
    expect_list(&t, 1, 2, 7, 12, 0, "at step 3");
    expect_list(&t, 1, 2, SIZE_MAX, 12, 0, "any larger one too");
    expect_list(&t, 1, 2, 2, 12, 0, "a row below the step is 12");
    expect_list(&t, 1, 2, 3, 0, 0, "the first n rows");
    t.extent = dlm_cut(FIELDS + 1);
    expect_run(&t, 12, 0, "more than n steps are 12, though there are as many rows");
    t.extent = dlm_cut(FIELDS);
    resize_numbers(&t.rows, ROWS);
    expect_run(&t, 12, 0, "a list as long as the row count is 12");
    free_trial(&t);
}

/* ------------------------------------------------------------------ what the header does by itself */

static void test_sizes(void)
{
    dlm_sizes sizes = dlm_tall_sizes_for(FIELDS, ROWS, ENTRIES, NULL);
    expect(sizes.starts == 7 && sizes.right == 6 && sizes.x == 6 && sizes.row_heads == 7 && sizes.list == 6, "sizes by the row count");
    expect(sizes.copy == 6 && sizes.dense == 7 && sizes.set_links == 7 && sizes.spare == 6, "and those of the other work stores");
    expect(sizes.rows == 3 && sizes.d == 3 && sizes.pivots == 3 && sizes.l_starts == 3 && sizes.l_slots == 4, "sizes by n");
    expect(dlm_tall_sizes_for(3, 2, 8, NULL).starts == 0 && dlm_tall_sizes_for(3, 2049, 8, NULL).starts == 0, "none for a refused row count");
    expect(dlm_tall_sizes_for(3, 2048, 8, NULL).x == 2048 && dlm_tall_sizes_for(0, 4, 8, NULL).x == 0, "nor for a refused n");
}

static void test_conversion(void)
{
    static const size_t from_zero[ENTRIES] = {0, 2, 1, 2, 0, 1, 1, 2};
    static const int int_starts[ROWS + 1] = {0, 2, 3, 4, 6, 6, 8};
    static const int int_columns[ENTRIES] = {0, 2, 1, 2, 0, 1, 1, 2};
    size_t own_starts[ROWS + 1], own_columns[ENTRIES];
    dlm_pattern pattern = dlm_tall_pattern_from_csr(FIELDS, ROWS, starts, from_zero, ENTRIES, own_starts, own_columns);
    expect(pattern.n == FIELDS && pattern.height == ROWS && pattern.starts_length == ROWS + 1 && pattern.entries == ENTRIES, "lengths");
    expect(memcmp(own_starts, starts, sizeof starts) == 0 && memcmp(own_columns, columns, sizeof columns) == 0, "compressed rows from 0");
    memset(own_starts, 1, sizeof own_starts);
    memset(own_columns, 1, sizeof own_columns);
    pattern = dlm_tall_pattern_from_csr_int(FIELDS, ROWS, int_starts, int_columns, ENTRIES, own_starts, own_columns);
    expect(pattern.height == ROWS && memcmp(own_starts, starts, sizeof starts) == 0, "from int too");
    expect(memcmp(own_columns, columns, sizeof columns) == 0, "and their columns");
}

int main(void)
{
    seed_draws(1);
    test_plan();
    test_reduced();
    test_minus_zero();
    test_room();
    test_bounds();
    test_height();
    test_rows();
    test_lengths();
    test_run_lengths();
    test_other_plans();
    test_solving();
    test_no_solving();
    test_lists();
    test_sizes();
    test_conversion();
    return print_tried();
}
