/* A trial: one random system with its stores, one fault or none, and what documents 01 and 02 say that the calls answer. */
#ifndef TRIAL_H
#define TRIAL_H

#include "plain.h"
#include "stores.h"

/* The calls of a trial answer with numbers below this: 0 to 14, 25 and 26. */
enum { NUMBERS = 27 };

typedef struct trial {
    size_t size, tall;     /* the n and the row count that the stores were made for */
    size_t n, height;      /* the n and the row count that the calls are told */
    int around_limit;      /* numbers around the least magnitude of a pivot */
    unsigned char fault[NUMBERS]; /* fault[r]: refusal r is provoked; with two of them the order of the table shows */
    dlm_numbers starts, columns, rows;
    dlm_reals values, right;
    int listed; /* by the row list, or by the largest entry */
    dlm_extent extent;
    dlm_plan plan;
    dlm_work work;
    dlm_factor factor;
} trial;

dlm_pattern trial_pattern(const trial *t);
dlm_system trial_system(const trial *t);

/* A row count above n: one more, twice as many, or any number up to that. In half of the draws of the second function n itself. */
size_t draw_tall_height(size_t n);
size_t draw_height(size_t n);

/* A random system of n columns and so many rows with stores for planning; in half of them no fault, else one or two. For 26 a square gets one
   row more. */
void make_trial(trial *t, size_t n, size_t height);

/* One without faults. */
void make_good_trial(trial *t, size_t n, size_t height);

/* One without faults whose numbers lie around the least magnitude of a pivot. */
void make_limit_trial(trial *t, size_t n, size_t height);

/* One without faults on a given system, which is copied. */
void make_given_trial(trial *t, const dlm_pattern *pattern, const dlm_system *system);
void free_trial(trial *t);

/* Faults 1 to 5 and 25 in the pattern; 6 to 8 in the stores of a plan. `plain` is the plan without faults. */
void spoil_pattern(trial *t);
void spoil_plan_stores(trial *t, const plain_plan *plain);

/* The pivot rows of a plain run whose rows are chosen so; from where it stops on, any that 12 lets pass. */
void make_rows(trial *t, plain_choice choice);

/* A row list that the values allow (or, now and then, any list that 12 lets pass; around the limit often), a whole run or a cut one (of a tall
   system cut, unless 26 is provoked), and result stores: slots as the plan counts them or some more. */
void make_run(trial *t, const plain_plan *plain);
void make_results(trial *t, const plain_plan *plain);

/* Faults 6 and 9 to 12 before a run. 13 and 14 are faults of the values, which make_trial sees to. */
void spoil_run(trial *t);

void dirty_work(dlm_work *work);
void dirty_plan(dlm_plan *plan);
void dirty_factor(dlm_factor *factor);

/* What planning, verifying and running must answer. `plain` becomes the pattern's plan if it passes 1 to 5 and 25, `run` the reference's run if
   it passes 1 to 12 and 26. */
dlm_answer expected_of_plan(const trial *t, plain_plan *plain);
dlm_answer expected_of_verify(const trial *t, const plain_plan *plain);
dlm_answer expected_of_run(const trial *t, const plain_plan *plain, plain_run *run);

/* Whether the stores are what they must be: NULL, or what is wrong. */
const char *fault_in_plan(const trial *t, dlm_answer answer, const plain_plan *plain);
const char *fault_in_work(const dlm_work *work, int with_reals);
const char *fault_in_run(const trial *t, dlm_answer answer, const plain_plan *plain, const plain_run *run);

/* The trial, a square, as a job, before it is spoilt: its bytes (free them), and what document 01 says is printed for it. */
uint8_t *job_of_trial(const trial *t, size_t *length);
void expected_of_job(const trial *t, size_t job_length, const plain_plan *plain, char *text, size_t room);

#endif
