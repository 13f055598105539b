/* The calls of a trial through the header, each compared bit for bit with documents 01 and 02 written down plainly: number and step of the
   answer, every result store, zeros after refusals and behind results, zeros in work stores, and that inputs are unchanged. What is wrong is
   printed; what came about is counted. */
#ifndef TRY_TRIAL_H
#define TRY_TRIAL_H

#include "trial.h"

typedef struct score {
    size_t system;   /* the system that is tried, for what is printed */
    size_t seen[NUMBERS]; /* answers by number */
    size_t planned, planned_tall; /* all, and those of them with more rows than columns */
    size_t finished[4]; /* by the largest entry and by list, whole and cut */
    size_t tall[2];     /* of them those of systems with more rows than columns, by the largest entry and by list */
    size_t above[2];    /* of these those with a pivot row above n */
    size_t printed;     /* jobs that print a solution */
    size_t by_limit[2]; /* 13 for the least magnitude of a pivot alone, by the largest entry and by list */
    size_t passed_over; /* finished though some column had a fainter entry */
    size_t wrong;
} score;

extern score total;

/* Counts and prints a fault, unless it is NULL. */
void check_stores(const char *call, const char *fault);

/* Planning leaves the plan, and in `plain` the plain one where the pattern has one. Running is done twice, with different numbers in the
   result and work stores beforehand. */
void try_plan(trial *t, plain_plan *plain);
void try_verify(trial *t, const plain_plan *plain);
void try_run(trial *t, const plain_plan *plain);

#endif
