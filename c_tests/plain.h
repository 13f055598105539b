/* Documents 01 and 02 written down plainly, without sparse stores: sets as rows of marks, the square or, by document 02's ticket 9, the rectangle as
   it is. Nothing here is taken from the library; the tests compare the two. Indexes of sets and rectangles count from 1, place 0 is not used. */
#ifndef PLAIN_H
#define PLAIN_H

#include "dalumiveth.h"

/* The largest n and the largest row count of a trial that gets as far as planning. Its rectangle is cleared for every run, so that it is small where
   there are many. */
#ifndef PLAIN_MOST
#define PLAIN_MOST 120
#endif
#define PLAIN_TALL (2 * PLAIN_MOST)

/* Document 02, ticket 14: "A pivot must have magnitude at least 2 to the power -1022". */
#define PLAIN_LEAST_PIVOT 0x1p-1022

/* The lists of one side and their shared subscripts. */
typedef struct plain_side {
    size_t last; /* the last that a list may have: the row count in L, n in U */
    unsigned char has[PLAIN_MOST + 1][PLAIN_TALL + 1]; /* has[k][i]: i belongs to the list of step k; k itself is among its members */
    size_t kept[PLAIN_MOST + 1];                       /* members beyond k */
    size_t start[PLAIN_MOST + 1];
    size_t subs[PLAIN_MOST * PLAIN_TALL];
    size_t end[PLAIN_MOST + 1]; /* the store's end after step k */
    size_t slots[PLAIN_MOST + 1]; /* slots of the first k steps */
} plain_side;

typedef struct plain_plan {
    size_t n;
    size_t height; /* the row count */
    size_t entries;
    size_t reads;
    plain_side l;
    plain_side u;
} plain_plan;

/* How the pivot rows are chosen; at random: any row that serves, or any with at least half the largest magnitude. */
typedef enum plain_choice { BY_LARGEST, BY_LIST, AT_RANDOM, NEAR_LARGEST } plain_choice;

typedef struct plain_run {
    dlm_answer answer;
    size_t updates;
    double rectangle[PLAIN_TALL + 1][PLAIN_MOST + 1]; /* rectangle[i][j]: row i, column j */
    double x[PLAIN_TALL + 1];
    size_t pivots[PLAIN_MOST + 1];
    int by_limit;       /* stopped with 13 for the limit alone: an entry that was looked at is not zero */
    size_t passed_over; /* steps whose column had a fainter entry than the limit beside the pivot */
} plain_run;

dlm_answer plain_answer(size_t number, size_t step);

/* Refusals 1, 25 and 2 to 5. */
dlm_answer plain_judge_pattern(const dlm_pattern *pattern);

/* Lists, reads, subscripts and slots of a pattern that passes 1 to 5. */
void plain_make_plan(const dlm_pattern *pattern, plain_plan *plan);

/* Refusals 7 and 8 for stores with room for so many subscripts. */
dlm_answer plain_judge_room(const plain_plan *plan, size_t l_room, size_t u_room);

/* Elimination and, where the run is not cut, solution of a system that passes 1 to 12, 25 and 26 among them, with 13 and 14. `rows` is read by
   BY_LIST alone; `draw` gives AT_RANDOM and NEAR_LARGEST their numbers. */
void plain_eliminate(const dlm_pattern *pattern, const dlm_system *system, plain_choice choice, const size_t *rows, size_t (*draw)(size_t),
                     dlm_extent extent, plain_run *run);

#endif
