/* Test loads as whole systems, of 1,024 rows in the gate: each is planned, verified, and run by the largest entry and by a list of rows,
   whole and cut. Each call is compared bit for bit with documents 01 and 02 written down plainly, a run with the elimination on the full square.

     load_runs SEED LOADS N D

   The loads are those of the seeds SEED, SEED+1, .., so that any of them can be quoted. */
#include "try_trial.h"

#include <stdio.h>

static dlm_load load_of(uint32_t seed, size_t n, size_t d)
{
    dlm_load load;
    dlm_answer answer;
    if (!dlm_load_allocate(&load, n))
        exit(EXIT_FAILURE);
    answer = dlm_make_load(seed, n, d, &load);
    if (answer.refusal != DLM_NONE) {
        printf("the load of seed %lu is refused: %s\n", (unsigned long)seed, dlm_sentence((size_t)answer.refusal));
        exit(EXIT_FAILURE);
    }
    return load;
}

static void try_runs(trial *t, const plain_plan *plain)
{
    for (t->listed = 0; t->listed <= 1; t->listed++) {
        t->extent = dlm_whole();
        try_run(t, plain);
        t->extent = dlm_cut(draw(t->n + 1));
        try_run(t, plain);
    }
}

static void try_load(uint32_t seed, size_t n, size_t d)
{
    static plain_plan plain;
    dlm_load load = load_of(seed, n, d);
    dlm_pattern pattern = dlm_pattern_of_load(&load);
    dlm_system system = dlm_system_of_load(&load);
    trial t;
    make_given_trial(&t, &pattern, &system);
    plain_make_plan(&pattern, &plain);
    make_rows(&t, NEAR_LARGEST); /* so that no multiplier passes 2, and the numbers do not grow fast in so many steps */
    spoil_plan_stores(&t, &plain); /* without a fault: as many subscripts as are used, or a few more */
    try_plan(&t, &plain);
    try_verify(&t, &plain);
    make_results(&t, &plain);
    try_runs(&t, &plain);
    printf("seed %lu: %zu entries, %zu and %zu slots\n", (unsigned long)seed, load.entries, plain.l.slots[n], plain.u.slots[n]);
    free_trial(&t);
    dlm_load_free(&load);
}

int main(int count, char **words)
{
    uint32_t seed;
    size_t loads, n, d;
    if (count != 5) {
        fprintf(stderr, "use: load_runs SEED LOADS N D\n");
        return EXIT_FAILURE;
    }
    seed = (uint32_t)strtoull(words[1], NULL, 10);
    loads = (size_t)strtoull(words[2], NULL, 10);
    n = (size_t)strtoull(words[3], NULL, 10);
    d = (size_t)strtoull(words[4], NULL, 10);
    if (n > PLAIN_MOST) {
        fprintf(stderr, "load_runs: at most %d rows\n", PLAIN_MOST);
        return EXIT_FAILURE;
    }
    seed_draws(seed);
    for (total.system = 0; total.system < loads; total.system++)
        try_load(seed + (uint32_t)total.system, n, d);
    printf("%zu loads of n %zu, d %zu: %zu planned; finished by the largest entry %zu, cut %zu, by list %zu, cut %zu; %zu wrong\n", loads, n, d,
           total.planned, total.finished[0], total.finished[1], total.finished[2], total.finished[3], total.wrong);
    if (loads > 0 && (total.finished[0] == 0 || total.finished[1] == 0 || total.finished[2] == 0 || total.finished[3] == 0)) {
        printf("some kind of run never finished\n");
        return EXIT_FAILURE;
    }
    return total.wrong == 0 ? EXIT_SUCCESS : EXIT_FAILURE;
}
