/* Random systems through the header, each call compared bit for bit with documents 01 and 02 written down plainly.

     random_runs [SEED [SYSTEMS]]

   Half of the trials are squares, and are answered as a job first; the others have more rows than columns. Each is planned, verified and run
   twice, with different numbers in the result and work stores beforehand. Half of the trials have a fault or two. After each come ten small
   ones whose numbers lie around 2^-1022, the least magnitude of a pivot. What is compared: number and step of the answer, every result store,
   zeros after refusals and behind results, zeros in work stores, what a job prints, and that inputs are unchanged. */
#include "try_trial.h"

#include <stdio.h>
#include <string.h>

/* Trials around the limit after each other trial, and how many runs each thing that the limit decides has to be seen in. */
enum { LIMIT_TRIALS = 10, LIMIT_RUNS = 1000 };

static const char *const choices[2] = {"by the largest entry", "by list"};

/* The system as a job: what is printed, and zeros behind it. */
static void try_job(const trial *t, const plain_plan *plain)
{
    static char expected[DLM_MOST_PRINTED + 1];
    static uint8_t out[DLM_MOST_PRINTED];
    size_t length = 0;
    uint8_t *job = job_of_trial(t, &length);
    size_t printed;
    memset(expected, 0, sizeof expected);
    memset(out, 1, sizeof out);
    expected_of_job(t, length, plain, expected, sizeof expected);
    printed = dlm_answer_job(job, length, out);
    check_stores("job", printed == strlen(expected) ? NULL : "another number of bytes is printed");
    check_stores("job", memcmp(out, expected, sizeof out) == 0 ? NULL : "other bytes are printed");
    total.printed += expected[0] == 'p';
    free(job);
}

static void try_calls(trial *t)
{
    static plain_plan plain;
    dlm_pattern pattern = trial_pattern(t);
    plain_make_plan(&pattern, &plain);
    make_run(t, &plain);
    if (t->tall == t->size)
        try_job(t, &plain);
    spoil_pattern(t);
    spoil_plan_stores(t, &plain);
    try_plan(t, &plain);
    spoil_run(t);
    try_verify(t, &plain);
    try_run(t, &plain);
    free_trial(t);
}

static void try_system(size_t n)
{
    trial t;
    size_t turn;
    make_trial(&t, n, draw_height(n));
    try_calls(&t);
    for (turn = 0; turn < LIMIT_TRIALS; turn++) {
        size_t small = 1 + draw(8);
        make_limit_trial(&t, small, draw_height(small));
        try_calls(&t);
    }
}

/* Whether a number is one that the calls of a trial answer with. */
static int is_told(size_t number)
{
    return number <= 14 || number == 25 || number == 26;
}

/* Every refusal and every kind of run has to come about, what the limit decides in many of them, or the trials show less than they say. */
static int all_seen(void)
{
    size_t number;
    int all = total.finished[0] > 0 && total.finished[1] > 0 && total.finished[2] > 0 && total.finished[3] > 0;
    for (number = 0; number < NUMBERS; number++)
        if (is_told(number) && total.seen[number] == 0)
            all = 0;
    all = all && total.above[0] > 0 && total.above[1] > 0;
    return all && total.by_limit[0] >= LIMIT_RUNS && total.by_limit[1] >= LIMIT_RUNS && total.passed_over >= LIMIT_RUNS;
}

static void print_score(unsigned long long seed, size_t systems)
{
    size_t number;
    int way;
    printf("seed %llu: %zu systems and %zu around 2^-1022, %zu planned, %zu of them with more rows than columns; finished by the largest entry "
           "%zu, cut %zu, by list %zu, cut %zu; as jobs %zu\n",
           seed, systems, systems * LIMIT_TRIALS, total.planned, total.planned_tall, total.finished[0], total.finished[1], total.finished[2],
           total.finished[3], total.printed);
    for (way = 0; way < 2; way++)
        printf("%s: 13 for the limit alone %zu, finished with more rows than columns %zu, with a pivot row above n %zu\n", choices[way],
               total.by_limit[way], total.tall[way], total.above[way]);
    printf("finished past fainter entries: %zu\n", total.passed_over);
    printf("answers by number:");
    for (number = 0; number < NUMBERS; number++)
        if (is_told(number))
            printf(" %zu: %zu%s", number, total.seen[number], number < NUMBERS - 1 ? "," : "\n");
}

int main(int count, char **words)
{
    unsigned long long seed = count > 1 ? strtoull(words[1], NULL, 10) : 1;
    size_t systems = count > 2 ? (size_t)strtoull(words[2], NULL, 10) : 2000;
    seed_draws(seed);
    for (total.system = 1; total.system <= systems; total.system++) {
        try_system(total.system % 25 == 0 ? 41 + draw(PLAIN_MOST - 40) : 1 + draw(40));
    }
    print_score(seed, systems);
    if (systems >= 2000 && !all_seen()) {
        printf("some answer never came about, or what the limit decides came about too seldom\n");
        return EXIT_FAILURE;
    }
    printf("%zu wrong\n", total.wrong);
    return total.wrong == 0 ? EXIT_SUCCESS : EXIT_FAILURE;
}
