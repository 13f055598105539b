/* Fixed test loads (document 02, ticket 6), through the exported function and through the header: draws that were worked out elsewhere,
   divisors past 32 bits, the limits met and passed by one, every refusal and its order, any numbers in the stores before, zeros after
   refusals and behind the entries, answers of any length. */
#include "dalumiveth.h"
#include "expect.h"

#include <math.h>
#include <string.h>

enum { ROWS = 1024, PLACES = 16384, SPARE = 2, DIRT = 0x5A };

/* Longer than any call lends them. */
static size_t starts[ROWS + 1 + SPARE], columns[PLACES + SPARE];
static double values[PLACES + SPARE], right_side[ROWS + SPARE];

typedef struct lengths {
    size_t starts, columns, values, right;
} lengths;

static lengths lengths_for(size_t n)
{
    lengths lent;
    lent.starts = n + 1;
    lent.columns = lent.values = PLACES;
    lent.right = n;
    return lent;
}

static int all_bytes(const void *store, size_t size, int byte)
{
    const unsigned char *bytes = (const unsigned char *)store;
    for (; size > 0; size--)
        if (bytes[size - 1] != byte)
            return 0;
    return 1;
}

/* The bits of a double: zeros of both signs differ. */
static int same_real(double a, double b)
{
    return memcmp(&a, &b, sizeof a) == 0;
}

static void dirty(void)
{
    memset(starts, DIRT, sizeof starts);
    memset(columns, DIRT, sizeof columns);
    memset(values, DIRT, sizeof values);
    memset(right_side, DIRT, sizeof right_side);
}

/* A call on dirty stores: the number, the entries through `entries`. */
static size_t load_number(uint32_t seed, size_t n, size_t d, lengths lent, size_t *entries)
{
    size_t answer[3] = {DIRT, DIRT, DIRT};
    size_t number;
    dirty();
    number = dalumiveth_load(seed, n, d, starts, lent.starts, columns, lent.columns, values, lent.values, right_side, lent.right, answer, 3);
    expect(answer[0] == number && answer[1] == 0, "the answer has the number and step 0");
    expect(all_bytes(starts + lent.starts, sizeof *starts, DIRT) && all_bytes(columns + lent.columns, sizeof *columns, DIRT) &&
               all_bytes(values + lent.values, sizeof *values, DIRT) && all_bytes(right_side + lent.right, sizeof *right_side, DIRT),
           "nothing behind the stores is written");
    *entries = answer[2];
    return number;
}

static void expect_refused(uint32_t seed, size_t n, size_t d, lengths lent, size_t number)
{
    size_t entries;
    expect(load_number(seed, n, d, lent, &entries) == number && entries == 0, number == 1 ? "1" : number == 6 ? "6" : "23");
    expect(all_bytes(starts, lent.starts * sizeof *starts, 0) && all_bytes(columns, lent.columns * sizeof *columns, 0) &&
               all_bytes(values, lent.values * sizeof *values, 0) && all_bytes(right_side, lent.right * sizeof *right_side, 0),
           "all four stores are zeros after a refusal");
}

static void expect_made(uint32_t seed, size_t n, size_t d, size_t entries)
{
    size_t behind = PLACES - entries;
    size_t told;
    expect(load_number(seed, n, d, lengths_for(n), &told) == 0 && told == entries, "a load with so many entries");
    expect(starts[0] == 0 && starts[n] == entries, "row starts from 0 to the number of entries");
    expect(all_bytes(columns + entries, behind * sizeof *columns, 0) && all_bytes(values + entries, behind * sizeof *values, 0),
           "zeros behind the entries");
}

/* ------------------------------------------------------------------ draws */

/* The first eight of three seeds. */
enum { SEEDS = 3, DRAWS = 8 };
static const uint32_t seeds[SEEDS] = {0, 1, 4294967295};
static const uint32_t draws[SEEDS][DRAWS] = {
    {2245302282, 185081908, 2313965219, 370163945, 2646410846, 326733158, 2442523379, 740327763},
    {2245302665, 185082037, 2313964836, 370163816, 2646411229, 326733287, 2442526061, 740327890},
    {2245302411, 185082295, 2313965090, 370164590, 2646410975, 326733029, 2442523250, 740329180},
};

static int is_value(double number, uint32_t draw)
{
    return same_real(number, (double)(int)(draw % 2001) - 1000);
}

/* One row: its value and its right side. */
static void test_one_row(void)
{
    size_t which;
    for (which = 0; which < SEEDS; which++) {
        expect_made(seeds[which], 1, 1, 1);
        expect(columns[0] == 1, "the diagonal of one row");
        expect(is_value(values[0], draws[which][0]) && is_value(right_side[0], draws[which][1]), "from two draws");
    }
}

/* Two rows with every place: a draw for each place off the diagonal, then one for its value. */
static void test_every_place(void)
{
    size_t which;
    for (which = 0; which < SEEDS; which++) {
        const uint32_t *draw = draws[which];
        expect_made(seeds[which], 2, 1, 4);
        expect(starts[1] == 2 && columns[0] == 1 && columns[1] == 2 && columns[2] == 1 && columns[3] == 2, "every place of two rows");
        expect(is_value(values[0], draw[0]) && is_value(values[1], draw[2]) && is_value(right_side[0], draw[3]), "row 1 from four draws");
        expect(is_value(values[2], draw[5]) && is_value(values[3], draw[6]) && is_value(right_side[1], draw[7]), "row 2 from four more");
    }
}

/* Two rows, d being the second draw: place (1, 2) is present and (2, 1), by the fifth, is not. */
static void test_present_place(void)
{
    size_t which;
    for (which = 0; which < SEEDS; which++) {
        const uint32_t *draw = draws[which];
        expect_made(seeds[which], 2, draw[1], 3);
        expect(starts[1] == 2 && columns[1] == 2 && columns[2] == 2, "a draw divides by itself");
        expect(is_value(values[1], draw[2]) && is_value(right_side[0], draw[3]), "row 1 from four draws");
        expect(is_value(values[2], draw[5]) && is_value(right_side[1], draw[6]), "row 2 from three");
    }
}

/* The same with one more for d: neither is present, and no draw is made for the value of an absent place. */
static void test_absent_places(void)
{
    size_t which;
    for (which = 0; which < SEEDS; which++) {
        const uint32_t *draw = draws[which];
        expect_made(seeds[which], 2, (size_t)draw[1] + 1, 2);
        expect(starts[1] == 1 && columns[0] == 1 && columns[1] == 2, "a draw does not divide by one more");
        expect(is_value(values[0], draw[0]) && is_value(right_side[0], draw[2]), "row 1 from three draws");
        expect(is_value(values[1], draw[4]) && is_value(right_side[1], draw[5]), "row 2 from three");
    }
}

/* By a d past 32 bits only 0 divides; in 32 bits some of these would be 0 or 1. Of the second seed here the second draw is 0, its state being so. */
static void test_large_divisors(void)
{
    static const size_t divisors[] = {(size_t)1 << 32, ((size_t)1 << 32) + 1, (size_t)1 << 63, SIZE_MAX - 1, SIZE_MAX};
    size_t which;
    for (which = 0; which < sizeof divisors / sizeof divisors[0]; which++) {
        expect_made(1, 4, divisors[which], 4);
        expect(columns[0] == 1 && columns[1] == 2 && columns[2] == 3 && columns[3] == 4, "the diagonal alone");
        expect_made(UINT32_C(3281063054), 2, divisors[which], 3);
        expect(starts[1] == 2 && columns[1] == 2 && columns[2] == 2, "0 divides by every d");
    }
    expect_made(UINT32_C(3281063054), 2, 7, 3);
    expect(starts[1] == 2, "by a small one too");
}

/* The least and the largest, and 0, which is +0 and an entry like any other: as the value, then as the right side. */
static void test_values(void)
{
    static const struct {
        uint32_t seed;
        double value, right;
    } rows[] = {{95, -1000, -884}, {1640531527, -1000, -808}, {799, 1000, -566}, {1610, 0, -521},
                {2673, -917, -1000}, {1866, 977, 1000}, {535, 512, 0}};
    size_t which;
    for (which = 0; which < sizeof rows / sizeof rows[0]; which++) {
        expect_made(rows[which].seed, 1, 5, 1);
        expect(same_real(values[0], rows[which].value) && same_real(right_side[0], rows[which].right), "value and right side");
    }
}

/* A load whole, as it was worked out elsewhere. */
static void test_whole_load(void)
{
    static const size_t own_starts[] = {0, 3, 4, 5, 6, 8};
    static const size_t own_columns[] = {1, 3, 4, 2, 3, 4, 3, 5};
    static const double own_values[] = {74, 15, -826, 189, 291, 626, 644, 495};
    static const double own_right[] = {962, 734, 298, -947, 855};
    expect_made(1984, 5, 3, sizeof own_columns / sizeof *own_columns);
    expect(memcmp(starts, own_starts, sizeof own_starts) == 0, "the row starts of seed 1984, n 5, d 3");
    expect(memcmp(columns, own_columns, sizeof own_columns) == 0, "its columns");
    expect(memcmp(values, own_values, sizeof own_values) == 0 && memcmp(right_side, own_right, sizeof own_right) == 0, "its numbers");
}

/* ------------------------------------------------------------------ limits */

static void test_most_rows(void)
{
    int diagonal = 1;
    size_t i;
    expect_made(1, ROWS, SIZE_MAX, ROWS);
    for (i = 0; i < ROWS; i++)
        diagonal &= starts[i] == i && columns[i] == i + 1;
    expect(diagonal, "1,024 rows of the diagonal alone");
    expect_refused(1, ROWS + 1, SIZE_MAX, lengths_for(ROWS), 1);
}

/* 16,384 entries are made, one more is 1: with every place, and where only the last place of the last row brings it. */
static void test_most_entries(void)
{
    int every = 1;
    size_t place;
    expect_made(7, 128, 1, PLACES);
    for (place = 0; place < PLACES; place++)
        every &= columns[place] == place % 128 + 1 && starts[place / 128] == place / 128 * 128;
    expect(every, "every place of 128 rows");
    expect_refused(7, 129, 1, lengths_for(129), 1);
    expect_refused(7, ROWS, 1, lengths_for(ROWS), 1);
    expect_made(60, 180, 2, PLACES);
    expect_refused(4, 180, 2, lengths_for(180), 1);
    expect_made(3, 221, 3, PLACES);
    expect_refused(43, 221, 3, lengths_for(221), 1);
}

/* ------------------------------------------------------------------ refusals */

static const size_t no_rows[] = {0, 1025, 1026, 65537, (size_t)UINT32_MAX + 2, (size_t)1 << 63, SIZE_MAX - 1, SIZE_MAX};
enum { NO_ROWS = sizeof no_rows / sizeof no_rows[0] };

/* 1 for n whatever d and the stores are, those that the lowest bits of n want among them. */
static void test_rows(void)
{
    size_t which;
    for (which = 0; which < NO_ROWS; which++) {
        size_t lowest = no_rows[which] % 65536;
        expect_refused(7, no_rows[which], 3, lengths_for(1), 1);
        expect_refused(7, no_rows[which], 0, lengths_for(1), 1);
        expect_refused(7, no_rows[which], 1, lengths_for(lowest <= ROWS ? lowest : ROWS), 1);
        expect_refused(7, no_rows[which], 0, (lengths){3, 2, 1, 0}, 1);
    }
}

/* The right lengths but for one store, which has `places`. */
static lengths but_for(size_t n, size_t store, size_t places)
{
    lengths lent = lengths_for(n);
    switch (store) {
    case 0: lent.starts = places; break;
    case 1: lent.columns = places; break;
    case 2: lent.values = places; break;
    default: lent.right = places;
    }
    return lent;
}

/* A store of another length is 6, before any draw, so that too many entries are not seen; where d is 0 it is 23. */
static void expect_other_length(size_t n, size_t store, size_t places)
{
    expect_refused(7, n, 1, but_for(n, store, places), 6);
    expect_refused(7, n, 0, but_for(n, store, places), 23);
}

static void test_lengths(void)
{
    static const size_t sizes[] = {1, 5, 129, ROWS};
    size_t which, store;
    for (which = 0; which < sizeof sizes / sizeof sizes[0]; which++) {
        size_t n = sizes[which];
        for (store = 0; store < 4; store++) {
            size_t wanted = store == 0 ? n + 1 : store == 3 ? n : PLACES;
            expect_other_length(n, store, wanted - 1);
            expect_other_length(n, store, wanted + 1);
            expect_other_length(n, store, 0);
        }
        expect_refused(7, n, 0, lengths_for(n), 23);
        expect_refused(7, n, 0, (lengths){0, 0, 0, 0}, 23);
        expect_refused(7, n, 1, (lengths){0, 0, 0, 0}, 6);
        expect_refused(7, n, 1, (lengths){n, PLACES, PLACES, n + 1}, 6);
    }
}

/* `answer` may have any length: what it has room for, and zeros behind. */
static void expect_answer(size_t n, size_t d, size_t starts_length, size_t number, size_t entries)
{
    size_t expected[6] = {0}, answer[7];
    size_t length, told;
    expected[0] = number;
    expected[2] = entries;
    for (length = 0; length <= 6; length++) {
        memset(answer, DIRT, sizeof answer);
        told = dalumiveth_load(7, n, d, starts, starts_length, columns, PLACES, values, PLACES, right_side, n, answer, length);
        expect(told == number && memcmp(answer, expected, length * sizeof *answer) == 0, "the answer, as far as there is room");
        expect(all_bytes(answer + length, sizeof *answer, DIRT), "and nothing behind it is written");
    }
}

static void test_answers(void)
{
    expect_answer(5, 1, 6, 0, 25);
    expect_answer(0, 1, 1, 1, 0);
    expect_answer(5, 0, 6, 23, 0);
    expect_answer(5, 1, 5, 6, 0);
    expect_answer(129, 1, 130, 1, 0);
}

/* ------------------------------------------------------------------ through the header */

static int is(dlm_answer answer, size_t number)
{
    return (size_t)answer.refusal == number && answer.step == 0;
}

static int have_lengths(const dlm_load *load, lengths wanted)
{
    return load->starts.length == wanted.starts && load->columns.length == wanted.columns && load->values.length == wanted.values &&
           load->right.length == wanted.right;
}

static void test_allocation(void)
{
    static const lengths none = {0, 0, 0, 0};
    dlm_load load;
    size_t which;
    for (which = 0; which < NO_ROWS; which++) {
        expect(dlm_load_allocate(&load, no_rows[which]) && have_lengths(&load, none), "no places for an n that is refused");
        expect(is(dlm_make_load(7, no_rows[which], 3, &load), 1) && load.n == 0 && load.entries == 0, "which is 1");
        dlm_load_free(&load);
    }
    expect(dlm_load_allocate(&load, 5) && have_lengths(&load, lengths_for(5)), "places for 5 rows");
    expect(is(dlm_make_load(7, 6, 3, &load), 6) && is(dlm_make_load(7, 4, 3, &load), 6), "which do for no other n");
    dlm_load_free(&load);
    expect(load.starts.at == NULL && load.columns.at == NULL && load.values.at == NULL && load.right.at == NULL, "given back");
    expect(have_lengths(&load, none), "and without places");
}

/* A store without memory has no places, whatever its length says. */
static void test_no_memory(void)
{
    dlm_load load = {9, {NULL, 6}, {NULL, PLACES}, {NULL, PLACES}, {NULL, 5}, 9};
    dlm_pattern pattern;
    expect(is(dlm_make_load(7, 5, 3, &load), 6) && load.n == 0 && load.entries == 0, "no stores are 6");
    expect(is(dlm_make_load(7, 5, 0, &load), 23) && is(dlm_make_load(7, 0, 0, &load), 1), "after 23 and 1");
    pattern = dlm_pattern_of_load(&load);
    expect(pattern.n == 0 && pattern.entries == 0 && dlm_system_of_load(&load).values_length == 0, "and no pattern");
}

/* How far the equations are from holding. */
static double residual(const dlm_pattern *pattern, const dlm_system *system, dlm_reals x)
{
    double most = 0;
    size_t i, place;
    for (i = 0; i < pattern->n; i++) {
        double sum = -system->right[i];
        for (place = pattern->starts[i]; place < pattern->starts[i + 1]; place++)
            sum += system->values[place] * x.at[pattern->columns[place] - 1];
        most = fmax(most, fabs(sum));
    }
    return most;
}

/* From a seed to a plan and a solution; then the same stores after a refusal. */
static void test_plan_and_run(dlm_load *load, dlm_plan *plan, dlm_work *work, dlm_factor *factor)
{
    dlm_pattern pattern;
    dlm_system system;
    expect(is(dlm_make_load(7, 40, 6, load), 0) && load->n == 40 && load->starts.at[40] == load->entries, "the load of seed 7, n 40, d 6");
    pattern = dlm_pattern_of_load(load);
    system = dlm_system_of_load(load);
    expect(is(dlm_make_plan(&pattern, plan, work), 0) && plan->counts.entries == load->entries, "is planned");
    expect(is(dlm_verify_plan(&pattern, plan, work), 0), "and verified");
    expect(is(dlm_run_largest(&pattern, plan, &system, dlm_whole(), factor, work), 0), "and run");
    expect(residual(&pattern, &system, factor->x) < 1e-6, "and solved");
    expect(is(dlm_make_load(7, 40, 0, load), 23) && load->n == 0 && load->entries == 0, "23 through the header");
    expect(all_bytes(load->starts.at, 41 * sizeof(size_t), 0) && all_bytes(load->right.at, 40 * sizeof(double), 0), "leaves zeros");
    pattern = dlm_pattern_of_load(load);
    expect(is(dlm_make_plan(&pattern, plan, work), 1), "and what is left is planned with 1");
}

static void test_whole_way(void)
{
    dlm_sizes sizes = dlm_sizes_for(40, PLACES, NULL);
    dlm_load load;
    dlm_plan plan;
    dlm_work work;
    dlm_factor factor;
    if (!dlm_load_allocate(&load, 40) || !dlm_plan_allocate(&plan, &sizes) || !dlm_work_allocate(&work, &sizes) ||
        !dlm_factor_allocate(&factor, &sizes))
        exit(EXIT_FAILURE);
    test_plan_and_run(&load, &plan, &work, &factor);
    dlm_factor_free(&factor);
    dlm_work_free(&work);
    dlm_plan_free(&plan);
    dlm_load_free(&load);
}

int main(void)
{
    test_one_row();
    test_every_place();
    test_present_place();
    test_absent_places();
    test_large_divisors();
    test_values();
    test_whole_load();
    test_most_rows();
    test_most_entries();
    test_rows();
    test_lengths();
    test_answers();
    test_allocation();
    test_no_memory();
    test_whole_way();
    return print_tried();
}
