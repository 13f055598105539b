/* Fixed calls through the header and through the exported functions: document 01's marked cases, lengths of answers, sizes, conversion,
   allocation and job.

     calls FOUR_FIELDS.JOB                                                                                                        */
#include "dalumiveth.h"
#include "expect.h"

#include <string.h>

static int is(dlm_answer answer, size_t number, size_t step)
{
    return (size_t)answer.refusal == number && answer.step == step;
}

/* ------------------------------------------------------------------ the four fields */

static const size_t starts[5] = {0, 2, 4, 6, 9};
static const size_t columns[9] = {1, 3, 2, 4, 1, 3, 2, 3, 4};
static const double values[9] = {2, 1, 1, 1, 4, 4, 2, 1, 4};
static const double right_side[4] = {3, 2, 8, 7};

static dlm_pattern pattern;
static dlm_plan plan;
static dlm_work work;
static dlm_factor factor;

/* Leaves the plan of the four fields in the stores above. */
static void plan_four_fields(void)
{
    dlm_sizes sizes = dlm_sizes_for(4, 9, NULL);
    pattern = dlm_pattern_of(4, starts, columns, 9);
    if (!dlm_plan_allocate(&plan, &sizes) || !dlm_work_allocate(&work, &sizes))
        exit(EXIT_FAILURE);
    expect(is(dlm_make_plan(&pattern, &plan, &work), 0, 0), "the four fields are planned");
    sizes = dlm_sizes_for(4, 9, &plan.counts);
    expect(sizes.l_subs == 2 && sizes.u_subs == 2 && sizes.l == 3 && sizes.u == 4, "sizes after planning are the counts");
    if (!dlm_factor_allocate(&factor, &sizes))
        exit(EXIT_FAILURE);
}

static void free_four_fields(void)
{
    dlm_factor_free(&factor);
    dlm_work_free(&work);
    dlm_plan_free(&plan);
}

static dlm_answer listed(size_t first, size_t second, size_t third, size_t fourth)
{
    size_t rows[4];
    dlm_system system = dlm_system_of(values, 9, right_side, 4);
    rows[0] = first;
    rows[1] = second;
    rows[2] = third;
    rows[3] = fourth;
    return dlm_run_listed(&pattern, &plan, &system, rows, 4, dlm_whole(), &factor, &work);
}

static void test_marked_lists(void)
{
    expect(is(listed(1, 2, 3, 4), 0, 0) && factor.updates == 2, "M5: list 1 2 3 4 has 2 updates");
    expect(is(listed(1, 2, 4, 4), 0, 0) && factor.updates == 3, "M6: list 1 2 4 4 has 3 updates");
    expect(dlm_number_at(&plan, &factor, 3, 4) == 2, "M6: 2 in U slot (3, 4)");
    expect(dlm_number_at(&plan, &factor, 0, 1) == 0 && dlm_number_at(&plan, &factor, 1, 5) == 0, "places outside the square are 0");
    expect(is(listed(2, 2, 3, 4), 13, 1) && factor.updates == 0 && factor.d.at[0] == 0, "M7: list 2 2 3 4 is 13 at step 1");
    expect(is(listed(1, 1, 3, 4), 12, 0), "M8: list 1 1 3 4 is 12");
}

/* M4, and the run cut to no step and to more than n. */
static void test_largest(void)
{
    dlm_system system = dlm_system_of(values, 9, right_side, 4);
    dlm_answer answer = dlm_run_largest(&pattern, &plan, &system, dlm_whole(), &factor, &work);
    const size_t *p = factor.pivots.at;
    expect(is(answer, 0, 0) && factor.updates == 3, "the largest entries give 3 updates");
    expect(p[0] == 3 && p[1] == 4 && p[2] == 3 && p[3] == 4, "M4: rows 3 4 3 4");
    expect(factor.x.at[0] == 1 && factor.x.at[1] == 1 && factor.x.at[2] == 1 && factor.x.at[3] == 1, "all offsets are 1");
    answer = dlm_run_largest(&pattern, &plan, &system, dlm_cut(0), &factor, &work);
    expect(is(answer, 0, 0) && factor.x.at[3] == 7 && dlm_number_at(&plan, &factor, 3, 1) == 4 && p[0] == 0, "cut to no step: as loaded");
    expect(is(dlm_run_largest(&pattern, &plan, &system, dlm_cut(5), &factor, &work), 12, 0), "cut to 5 of 4 steps is 12");
}

static void test_short_stores(void)
{
    size_t length = plan.l_subs.length;
    plan.l_subs.length = 2;
    expect(is(dlm_make_plan(&pattern, &plan, &work), 0, 0), "2 L subscripts suffice");
    plan.l_subs.length = 1;
    expect(is(dlm_make_plan(&pattern, &plan, &work), 7, 2), "1 L subscript is 7 at step 2");
    expect(plan.counts.n == 0 && plan.u_subs.at[0] == 0, "zeros after a refusal");
    plan.l_subs.length = length;
    expect(is(dlm_verify_plan(&pattern, &plan, &work), 9, 0), "a plan of zeros is another plan");
    expect(is(dlm_make_plan(&pattern, &plan, &work), 0, 0) && is(dlm_verify_plan(&pattern, &plan, &work), 0, 0), "planned again");
}

/* ------------------------------------------------------------------ small and large systems */

/* One field: the subscript and slot stores have no places and no memory. */
static dlm_answer run_one_field(double value, double right)
{
    static const size_t one_start[2] = {0, 1};
    static const size_t one_column[1] = {1};
    dlm_pattern one = dlm_pattern_of(1, one_start, one_column, 1);
    dlm_system system = dlm_system_of(&value, 1, &right, 1);
    size_t numbers[14] = {0};
    double reals[5] = {0};
    dlm_plan own_plan = {{0, 0, 0, 0, 0, 0, 0, 0}, {NULL, 0}, {numbers, 1}, {numbers + 1, 2}, {NULL, 0}, {numbers + 3, 1}, {numbers + 4, 2}};
    dlm_work own_work = {{numbers + 6, 2}, {numbers + 8, 2}, {NULL, 0}, {NULL, 0}, {NULL, 0}, {NULL, 0}, {reals, 1}, {reals + 1, 2}};
    dlm_factor own_factor = {{NULL, 0}, {NULL, 0}, {reals + 3, 1}, {reals + 4, 1}, {numbers + 10, 1}, 0};
    size_t more[6];
    dlm_answer answer;
    expect(is(dlm_make_plan(&one, &own_plan, &own_work), 6, 0), "missing work stores are 6");
    own_work.set_heads.at = more;
    own_work.set_heads.length = 2;
    own_work.set_links.at = more + 2;
    own_work.set_links.length = 2;
    own_work.list.at = more + 4;
    own_work.list.length = 1;
    own_work.spare.at = more + 5;
    own_work.spare.length = 1;
    expect(is(dlm_make_plan(&one, &own_plan, &own_work), 0, 0), "one field is planned without subscript stores");
    answer = dlm_run_largest(&one, &own_plan, &system, dlm_whole(), &own_factor, &own_work);
    expect(own_factor.x.at[0] == (answer.refusal == DLM_NONE ? right / value : 0), "the offset of one field");
    return answer;
}

/* Two fields with given entries in column 1, by the largest entry or, where `first` is not 0, by a list that begins with it. Leaves the pivot
   row of step 1 in `chosen`. */
static dlm_answer run_two_fields(double upper, double lower, size_t first, size_t *chosen)
{
    static const size_t two_starts[3] = {0, 2, 4};
    static const size_t two_columns[4] = {1, 2, 1, 2};
    static const double two_right[2] = {1, 1};
    double two_values[4];
    size_t two_rows[2];
    dlm_pattern two = dlm_pattern_of(2, two_starts, two_columns, 4);
    dlm_system system = dlm_system_of(two_values, 4, two_right, 2);
    dlm_sizes sizes = dlm_sizes_for(2, 4, NULL);
    dlm_plan own_plan;
    dlm_work own_work;
    dlm_factor own_factor;
    dlm_answer answer;
    two_values[0] = upper;
    two_values[2] = lower;
    two_values[1] = 1;
    two_values[3] = 3;
    two_rows[0] = first;
    two_rows[1] = 2;
    if (!dlm_plan_allocate(&own_plan, &sizes) || !dlm_work_allocate(&own_work, &sizes) || !dlm_factor_allocate(&own_factor, &sizes))
        exit(EXIT_FAILURE);
    expect(is(dlm_make_plan(&two, &own_plan, &own_work), 0, 0), "two fields are planned");
    if (first == 0)
        answer = dlm_run_largest(&two, &own_plan, &system, dlm_whole(), &own_factor, &own_work);
    else
        answer = dlm_run_listed(&two, &own_plan, &system, two_rows, 2, dlm_whole(), &own_factor, &own_work);
    *chosen = own_factor.pivots.at[0];
    dlm_factor_free(&own_factor);
    dlm_work_free(&own_work);
    dlm_plan_free(&own_plan);
    return answer;
}

static void test_tie(void)
{
    size_t chosen;
    expect(is(run_two_fields(2, -2, 0, &chosen), 0, 0) && chosen == 1, "M10: 2 and -2 choose the upper row");
}

/* Document 02, ticket 14: 2^-1022 may be a pivot, the largest number below it may not, of either sign. */
static void test_least_pivot(void)
{
    static const double limit = 0x1p-1022;
    static const double faint = 0x0.fffffffffffffp-1022;
    size_t chosen;
    int sign;
    for (sign = -1; sign <= 1; sign += 2) {
        expect(is(run_one_field(sign * limit, limit), 0, 0), "the value 2^-1022 is solved");
        expect(is(run_one_field(sign * faint, limit), 13, 1), "the largest number below it is 13 at step 1");
        expect(is(run_two_fields(sign * faint, limit, 0, &chosen), 0, 0) && chosen == 2, "a row at the limit is exchanged with a fainter one");
        expect(is(run_two_fields(limit, sign * limit, 0, &chosen), 0, 0) && chosen == 1, "of two rows at the limit the upper is chosen");
        expect(is(run_two_fields(faint, sign * faint, 0, &chosen), 13, 1) && chosen == 0, "no row at the limit is 13");
        expect(is(run_two_fields(sign * faint, limit, 1, &chosen), 13, 1) && chosen == 0, "a list that names the fainter row is 13");
        expect(is(run_two_fields(sign * faint, limit, 2, &chosen), 0, 0) && chosen == 2, "a list that names the row at the limit is not");
        expect(is(run_two_fields(sign * limit, 1, 1, &chosen), 0, 0) && chosen == 1, "nor with a larger row beside it");
    }
}

/* n = 1,024 is planned, 1,025 is 1. */
static void test_limits(void)
{
    static size_t diagonal_starts[1026];
    static size_t diagonal_columns[1025];
    dlm_sizes sizes = dlm_sizes_for(1024, 1024, NULL);
    dlm_plan own_plan;
    dlm_work own_work;
    dlm_pattern diagonal;
    size_t i;
    for (i = 0; i < 1025; i++) {
        diagonal_columns[i] = i + 1;
        diagonal_starts[i + 1] = i + 1;
    }
    expect(sizes.l_subs == 523776 && sizes.starts == 1025 && sizes.dense == 1025, "sizes for 1,024 fields");
    if (!dlm_plan_allocate(&own_plan, &sizes) || !dlm_work_allocate(&own_work, &sizes))
        exit(EXIT_FAILURE);
    diagonal = dlm_pattern_of(1024, diagonal_starts, diagonal_columns, 1024);
    expect(is(dlm_make_plan(&diagonal, &own_plan, &own_work), 0, 0) && own_plan.counts.reads == 2048, "1,024 fields are planned");
    diagonal = dlm_pattern_of(1025, diagonal_starts, diagonal_columns, 1025);
    expect(is(dlm_make_plan(&diagonal, &own_plan, &own_work), 1, 0), "1,025 fields are 1");
    dlm_work_free(&own_work);
    dlm_plan_free(&own_plan);
}

static int same_numbers(dlm_numbers store, const size_t *numbers, size_t count)
{
    return store.length >= count && memcmp(store.at, numbers, count * sizeof *numbers) == 0;
}

/* Document 02, ticket 5, on rows {1}, {2}, {3}, {1,3,4}: the lists of step 3 stand at the stores' ends, put there by step 1, and that of step 2 is
   empty. A plan that lays them anew, as by the rule before, is 9. */
static void test_end_of_the_store(void)
{
    static const size_t own_starts[5] = {0, 1, 2, 3, 6};
    static const size_t own_columns[6] = {1, 2, 3, 1, 3, 4};
    static size_t anew[4][4] = {{4, 4}, {0, 1, 1, 2}, {3, 4, 4}, {0, 2, 2, 3}};
    dlm_sizes sizes = dlm_sizes_for(4, 6, NULL);
    dlm_pattern own = dlm_pattern_of(4, own_starts, own_columns, 6);
    dlm_plan own_plan, before;
    dlm_work own_work;
    if (!dlm_plan_allocate(&own_plan, &sizes) || !dlm_work_allocate(&own_work, &sizes))
        exit(EXIT_FAILURE);
    expect(is(dlm_make_plan(&own, &own_plan, &own_work), 0, 0) && own_plan.counts.l_subscripts == 1 && own_plan.counts.u_subscripts == 2,
           "lists at the store's end are shared");
    expect(same_numbers(own_plan.l_subs, (const size_t[]){4}, 1) && same_numbers(own_plan.l_starts, (const size_t[]){0, 1, 0, 1}, 4), "L's store");
    expect(same_numbers(own_plan.u_subs, (const size_t[]){3, 4}, 2) && same_numbers(own_plan.u_starts, (const size_t[]){0, 2, 1, 2}, 4), "U's store");
    expect(is(dlm_verify_plan(&own, &own_plan, &own_work), 0, 0), "the plan is the pattern's");
    before = own_plan;
    before.l_subs = (dlm_numbers){anew[0], 2};
    before.l_starts = (dlm_numbers){anew[1], 4};
    before.u_subs = (dlm_numbers){anew[2], 3};
    before.u_starts = (dlm_numbers){anew[3], 4};
    before.counts.l_subscripts = 2;
    before.counts.u_subscripts = 3;
    expect(is(dlm_verify_plan(&own, &before, &own_work), 9, 0), "a plan by the rule before is 9");
    own_plan.l_subs.length = 1;
    own_plan.u_subs.length = 2;
    expect(is(dlm_make_plan(&own, &own_plan, &own_work), 0, 0), "1 and 2 subscripts suffice");
    dlm_work_free(&own_work);
    dlm_plan_free(&own_plan);
}

/* ------------------------------------------------------------------ what the header does by itself */

static void test_sizes(void)
{
    dlm_sizes sizes = dlm_sizes_for(4, 9, NULL);
    expect(sizes.l_subs == 6 && sizes.u_subs == 6 && sizes.l == 6 && sizes.u == 6, "n(n-1)/2 before planning");
    expect(sizes.values == 9 && sizes.rows == 4 && sizes.l_slots == 5 && sizes.row_heads == 5 && sizes.copy == 4, "sizes by n and entries");
    expect(dlm_sizes_for(0, 9, NULL).starts == 0 && dlm_sizes_for(1025, 9, NULL).starts == 0, "no sizes for an n that is refused");
    expect(dlm_sizes_for(4, 16385, NULL).starts == 0 && dlm_sizes_for(SIZE_MAX, 0, NULL).l == 0, "nor for entries that are refused");
}

static void test_conversion(void)
{
    static const size_t csr_columns[9] = {0, 2, 1, 3, 0, 2, 1, 2, 3};
    static const int int_starts[5] = {0, 2, -4, 6, 9};
    static const int int_columns[9] = {0, 2, 1, 3, -1, 2, 1, 2, 3};
    size_t own_starts[5];
    size_t own_columns[9];
    dlm_pattern converted = dlm_pattern_from_csr(4, starts, csr_columns, 9, own_starts, own_columns);
    expect(memcmp(own_starts, starts, sizeof starts) == 0 && memcmp(own_columns, columns, sizeof columns) == 0, "compressed rows from 0");
    expect(converted.n == 4 && converted.starts_length == 5 && converted.entries == 9, "and their lengths");
    converted = dlm_pattern_from_csr_int(4, int_starts, int_columns, 9, own_starts, own_columns);
    expect(is(dlm_make_plan(&converted, &plan, &work), 2, 0), "a negative start is 2");
    own_starts[2] = 4;
    expect(is(dlm_make_plan(&converted, &plan, &work), 3, 0), "a negative column is 3");
    own_columns[4] = 3;
    own_columns[5] = 1;
    expect(is(dlm_make_plan(&converted, &plan, &work), 4, 0), "columns that do not ascend are 4");
}

/* Sizes that no memory has: nothing may be kept. The second is over the addresses that there are. */
static void test_allocation(void)
{
    dlm_sizes sizes = dlm_sizes_for(4, 9, NULL);
    dlm_plan own_plan;
    dlm_work own_work;
    dlm_factor own_factor;
    sizes.u_subs = sizes.copy = SIZE_MAX;
    sizes.u = (size_t)1 << 45;
    expect(!dlm_plan_allocate(&own_plan, &sizes) && own_plan.l_subs.at == NULL && own_plan.u_slots.length == 0, "no plan");
    expect(!dlm_work_allocate(&own_work, &sizes) && own_work.list.at == NULL && own_work.dense.length == 0, "no work stores");
    expect(!dlm_factor_allocate(&own_factor, &sizes) && own_factor.l.at == NULL && own_factor.pivots.length == 0, "no factor");
    expect(is(dlm_make_plan(&pattern, &own_plan, &own_work), 6, 0), "stores without places are 6");
}

static void test_sentences(void)
{
    size_t number;
    for (number = 0; number <= 40; number++)
        expect((strcmp(dlm_sentence(number), dlm_sentence(SIZE_MAX)) != 0) == (number <= 19 || number == 23 || (number >= 25 && number <= 29)),
               "every refusal has a sentence, and no other number");
    expect(strcmp(dlm_sentence(DLM_DIAGONAL), "one of the first n rows lacks its diagonal") == 0, "the sentence of 5");
    expect(strcmp(dlm_sentence(DLM_NO_PIVOT), "no row from the step on, or not the listed row, has an entry of magnitude at least 2^-1022 in the "
                                              "step's column") == 0, "the sentence of 13");
    expect(strcmp(dlm_sentence(DLM_HEIGHT), "the rows are fewer than n or more than 2,048") == 0, "the sentence of 25");
    expect(strcmp(dlm_sentence(DLM_TALL), "a system with more rows than n is to be solved: it can be run only when cut") == 0, "the sentence of 26");
    expect(strcmp(dlm_sentence(SIZE_MAX), "no refusal has this number") == 0, "other numbers have none");
}

/* ------------------------------------------------------------------ the exported functions themselves */

/* An answer may be shorter or longer; `most` bounds n. */
static void test_answer_stores(void)
{
    size_t answer[12];
    size_t length;
    size_t number;
    for (length = 0; length <= 12; length++) {
        static const size_t full[12] = {0, 0, 4, 4, 9, 2, 2, 3, 4, 31, 0, 0};
        memset(answer, 1, sizeof answer);
        number = dalumiveth_plan(4, 4, 4, starts, 5, columns, 9, DLM_PLAN(&plan), DLM_WORK(&work), answer, length);
        expect(number == 0 && memcmp(answer, full, length * sizeof *answer) == 0, "an answer as long as its store");
        expect(length == 12 || answer[length] != 0, "and not longer");
    }
    number = dalumiveth_plan(3, 4, 4, starts, 5, columns, 9, DLM_PLAN(&plan), DLM_WORK(&work), answer, 10);
    expect(number == 1 && answer[0] == 1 && answer[2] == 0, "n above `most` is 1");
    number = dalumiveth_plan(SIZE_MAX, 4, 4, starts, 5, columns, 9, DLM_PLAN(&plan), DLM_WORK(&work), answer, 10);
    expect(number == 0 && answer[9] == 31, "`most` above 1,024 is 1,024");
}

static void test_counts(void)
{
    static const size_t counts[10] = {4, 4, 9, 2, 2, 3, 4, 31, 5, 5};
    size_t answer[2];
    expect(dalumiveth_verify(4, 4, 4, starts, 5, columns, 9, counts, 10, DLM_PLAN(&plan), DLM_WORK(&work), answer, 2) == 0,
           "further counts are not read");
    expect(dalumiveth_verify(4, 4, 4, starts, 5, columns, 9, counts, 7, DLM_PLAN(&plan), DLM_WORK(&work), answer, 2) == 9,
           "a missing count is 0");
}

static int zero_from(const uint8_t *bytes, size_t from, size_t length)
{
    for (; from < length; from++)
        if (bytes[from] != 0)
            return 0;
    return 1;
}

/* A store for the text that has another length than 8,192 is 6 and zeros; `answer` may have any length. */
static void test_text_stores(const uint8_t *job, size_t length, size_t printed)
{
    static uint8_t out[DLM_MOST_PRINTED + 2];
    static const size_t others[] = {0, 1, DLM_MOST_PRINTED - 1, DLM_MOST_PRINTED + 1};
    size_t answer[5];
    size_t which;
    for (which = 0; which < sizeof others / sizeof others[0]; which++) {
        memset(out, 1, sizeof out);
        memset(answer, 1, sizeof answer);
        expect(dalumiveth_job(job, length, out, others[which], answer, 4) == 6, "a text store of another length is 6");
        expect(answer[0] == 6 && answer[1] == 0 && answer[2] == 0 && answer[3] == 0, "and no byte is told");
        expect(zero_from(out, 0, others[which]) && out[others[which]] == 1, "it is zeros, and nothing behind it is written");
    }
    memset(answer, 1, sizeof answer);
    expect(dalumiveth_job(job, length, out, DLM_MOST_PRINTED, answer, 4) == 0, "a text store of 8,192 is taken");
    expect(answer[0] == 0 && answer[1] == 0 && answer[2] == printed && answer[3] == 0, "the number of bytes is told");
    memset(answer, 1, sizeof answer);
    expect(dalumiveth_job(job, length, out, DLM_MOST_PRINTED, answer, 1) == 0 && answer[0] == 0 && answer[1] != 0, "a shorter answer");
    expect(dlm_answer_job(job, length, NULL) == 0, "no text store");
}

/* The whole answer to the four-field job, as document 01 prints it. */
static void test_job(const char *path)
{
    static const char listing[] = "plan 4 9 2 2 3 4 31\nrows 3 4 3 4\nx 1 3FF0000000000000\nx 2 3FF0000000000000\n"
                                  "x 3 3FF0000000000000\nx 4 3FF0000000000000\nupdates 3\n";
    static uint8_t job[DLM_MOST_JOB + 1];
    static uint8_t out[DLM_MOST_PRINTED];
    FILE *file = fopen(path, "rb");
    size_t length = file != NULL ? fread(job, 1, sizeof job, file) : 0;
    size_t printed = dlm_answer_job(job, length, out);
    if (file != NULL)
        fclose(file);
    expect(printed == sizeof listing - 1 && memcmp(out, listing, printed) == 0 && zero_from(out, printed, sizeof out), "the listing");
    memset(out, 1, sizeof out);
    test_text_stores(job, length, printed);
    printed = dlm_answer_job(NULL, 0, out);
    expect(printed == 13 && memcmp(out, "refused 16 0\n", 13) == 0, "no bytes are 16");
    printed = dlm_answer_job(job, sizeof job, out);
    expect(printed == 13 && memcmp(out, "refused 18 0\n", 13) == 0, "too many bytes are 18");
}

int main(int count, char **words)
{
    if (count != 2) {
        fprintf(stderr, "use: calls FOUR_FIELDS.JOB\n");
        return EXIT_FAILURE;
    }
    plan_four_fields();
    test_marked_lists();
    test_largest();
    test_short_stores();
    test_answer_stores();
    test_counts();
    test_conversion();
    test_allocation();
    free_four_fields();
    expect(is(run_one_field(0, 6), 13, 1), "M9: value 0 is 13 at step 1");
    expect(is(run_one_field(2, 6), 0, 0), "value 2 is no refusal");
    test_tie();
    test_least_pivot();
    test_limits();
    test_end_of_the_store();
    test_sizes();
    test_sentences();
    test_job(words[1]);
    return print_tried();
}
