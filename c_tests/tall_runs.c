/* Random systems with as many rows as columns or more (document 02, ticket 9), none of them with a fault: each is planned, verified, and run by the
   largest entry and by a list of rows, cut at every s where n is small, and whole. Each call is compared bit for bit with documents 01 and 02
   written down plainly, a run with the elimination on the full rectangle; a whole run of a tall system is 26.

     tall_runs SEED SYSTEMS N [ROWS]

   n is drawn from 1 to N, but is N in the first system. The row count is n in one system of six, else n+1, 2n or any number between; with ROWS it
   is that. */
#include "try_trial.h"

#include <stdio.h>

/* Where n is larger a run is cut to n steps, and to some number of them. */
enum { EVERY_CUT = 24 };

static size_t with_empty_rows;
static size_t by_rows[4]; /* systems with n, n+1, 2n and any other number of rows */

static void count_rows(const trial *t)
{
    size_t i;
    by_rows[t->tall == t->size ? 0 : t->tall == t->size + 1 ? 1 : t->tall == 2 * t->size ? 2 : 3]++;
    for (i = 1; i <= t->tall; i++) {
        if (t->starts.at[i - 1] == t->starts.at[i]) {
            with_empty_rows++;
            return;
        }
    }
}

static void try_cut(trial *t, const plain_plan *plain, size_t steps)
{
    t->extent = dlm_cut(steps);
    try_run(t, plain);
}

static void try_cuts(trial *t, const plain_plan *plain)
{
    size_t s;
    if (t->size > EVERY_CUT) {
        try_cut(t, plain, draw(t->size));
        try_cut(t, plain, t->size);
        return;
    }
    for (s = 0; s <= t->size; s++)
        try_cut(t, plain, s);
}

/* In many steps the numbers grow fast, unless no multiplier passes 2. */
static void try_runs(trial *t, const plain_plan *plain)
{
    make_rows(t, t->size > EVERY_CUT ? NEAR_LARGEST : AT_RANDOM);
    for (t->listed = 0; t->listed <= 1; t->listed++) {
        try_cuts(t, plain);
        t->extent = dlm_whole();
        try_run(t, plain);
    }
}

static void try_system(size_t n, size_t height)
{
    static plain_plan plain;
    trial t;
    dlm_pattern pattern;
    make_good_trial(&t, n, height);
    count_rows(&t);
    pattern = trial_pattern(&t);
    plain_make_plan(&pattern, &plain);
    spoil_plan_stores(&t, &plain); /* without a fault: as many subscripts as are used, or a few more */
    try_plan(&t, &plain);
    try_verify(&t, &plain);
    make_results(&t, &plain);
    try_runs(&t, &plain);
    free_trial(&t);
}

static size_t draw_rows(size_t n)
{
    return draw(6) == 0 ? n : draw_tall_height(n);
}

static void print_score(size_t systems)
{
    printf("%zu systems, %zu with n rows, %zu with n+1, %zu with 2n, %zu with others, %zu with empty rows: %zu planned\n", systems, by_rows[0],
           by_rows[1], by_rows[2], by_rows[3], with_empty_rows, total.planned);
    printf("runs finished: by the largest entry %zu, by list %zu; of tall systems %zu and %zu, with a pivot row above n %zu and %zu\n",
           total.finished[0] + total.finished[1], total.finished[2] + total.finished[3], total.tall[0], total.tall[1], total.above[0],
           total.above[1]);
    printf("runs refused, each made twice: 13: %zu, 14: %zu, 26: %zu; %zu wrong\n", total.seen[13], total.seen[14], total.seen[26], total.wrong);
}

int main(int count, char **words)
{
    size_t systems, most, rows;
    if (count != 4 && count != 5) {
        fprintf(stderr, "use: tall_runs SEED SYSTEMS N [ROWS]\n");
        return EXIT_FAILURE;
    }
    seed_draws(strtoull(words[1], NULL, 10));
    systems = (size_t)strtoull(words[2], NULL, 10);
    most = (size_t)strtoull(words[3], NULL, 10);
    rows = count == 5 ? (size_t)strtoull(words[4], NULL, 10) : 0;
    if (most == 0 || most > PLAIN_MOST || rows > PLAIN_TALL || (rows != 0 && rows < most)) {
        fprintf(stderr, "tall_runs: N is 1 to %d, ROWS N to %d\n", PLAIN_MOST, PLAIN_TALL);
        return EXIT_FAILURE;
    }
    for (total.system = 1; total.system <= systems; total.system++) {
        size_t n = total.system == 1 ? most : 1 + draw(most);
        try_system(n, rows != 0 ? rows : draw_rows(n));
    }
    print_score(systems);
    if (systems > 0 && (total.above[0] == 0 || total.above[1] == 0 || total.seen[26] == 0 || with_empty_rows == 0)) {
        printf("some kind of row or run never came about\n");
        return EXIT_FAILURE;
    }
    return total.wrong == 0 ? EXIT_SUCCESS : EXIT_FAILURE;
}
