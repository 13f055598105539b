/*
 * Dalumiveth: sparse Gaussian elimination with row interchanges, in storage slots that are counted beforehand from the pattern alone.
 *
 * What to know first
 *
 *   Counting   Rows, columns, steps and members of a tally count from 1, as in the papers. Places in stores count from 0: what belongs
 *              to row, column, step or member k stands at place k-1.
 *   Rows       A pattern has n columns and n rows or more, up to 2,048: its row count, `height` in names. With n rows it is a square, and its
 *              systems can be solved; with more it is tall, and is run only when cut to its first steps.
 *   Stores     A store is a pointer and its number of places. The pointer must be valid for all of them, and a store lent for writing
 *              must not overlap any other store of the same call. That is all a caller has to see to: every length and every number
 *              gets an answer, a result or a refusal with its number. Inputs are never changed. In the functions dlm_* a NULL pointer
 *              is a store without places, whatever its length says.
 *   Refusals   After a refusal every result store is zero throughout. Work stores are zero after every call. A result store that is
 *              longer than needed has zeros behind the result; where one length is given (a job's text, an offset, a test load), another is 6.
 *              A tally is no result store: a refusal leaves it as it was.
 *   Proved     The functions dalumiveth_*, which the library exports, are proved for all inputs: each number of the answer and each store
 *              afterwards, bit for bit; that planned slots suffice for every choice of rows; that every call ends. Their contracts
 *              speak of stores that are valid and do not overlap: no proof sees what a program in C lends.
 *   Tested     The functions dlm_*, which stand in this file, put structs around them. They are not proved; the library's tests go
 *              through them.
 *
 * The short way
 *
 *   dlm_sizes sizes = dlm_sizes_for(n, entries, NULL);
 *   dlm_plan_allocate(&plan, &sizes); dlm_work_allocate(&work, &sizes);            each: 1, or 0 if there is no memory
 *   answer = dlm_make_plan(&pattern, &plan, &work);                                 answer.refusal is DLM_NONE, or the plan is zeros
 *   sizes = dlm_sizes_for(n, entries, &plan.counts);
 *   dlm_factor_allocate(&factor, &sizes);
 *   answer = dlm_run_largest(&pattern, &plan, &system, dlm_whole(), &factor, &work);          the solution is factor.x
 *   dlm_factor_free(&factor); dlm_work_free(&work); dlm_plan_free(&plan);
 *
 * For a tall system dlm_tall_pattern_of and dlm_tall_sizes_for take the row count behind n. It is cut, to its n columns at most:
 *
 *   answer = dlm_run_largest(&pattern, &plan, &system, dlm_cut(n), &factor, &work);
 *
 * The first n rows are then triangular, factor.d and factor.u, with the first n places of factor.x as their right side: back substitution gives
 * the offsets, as examples/two_observers.c shows. The places of factor.x behind them are the misfit of the rows that served as no pivot.
 *
 * Pattern and system may be a test load that a seed names, the same on every machine (dlm_load_free gives its stores back):
 *
 *   dlm_load_allocate(&load, n);
 *   answer = dlm_make_load(seed, n, d, &load);                                      about one place in d is present, and the diagonal
 *   pattern = dlm_pattern_of_load(&load); system = dlm_system_of_load(&load);
 *
 * A plan serves every run on its pattern. Different threads may call at the same time with stores of their own (a plan that is only
 * run may be shared): the library keeps nothing. A tally takes one call at a time, for different members too, since a call writes all
 * sixteen counters. The library allocates nothing either; dalumiveth_job takes some 120 kB of the stack, the other
 * functions less than 4 kB.
 */
#ifndef DALUMIVETH_H
#define DALUMIVETH_H

#include <stddef.h>
#include <stdint.h>
#include <stdlib.h>

#ifdef __cplusplus
extern "C" {
#endif

/* The library is made for 64 bits; elsewhere this line does not compile. */
typedef char dlm_size_t_has_64_bits[sizeof(size_t) == 8 ? 1 : -1];

#define DLM_MOST_N ((size_t)1024)         /* the largest n */
#define DLM_MOST_HEIGHT ((size_t)2048)    /* the largest row count */
#define DLM_MOST_ENTRIES ((size_t)16384)  /* the largest number of entries */
#define DLM_MOST_JOB ((size_t)16384)      /* bytes of the longest job */
#define DLM_MOST_PRINTED ((size_t)8192)   /* bytes that hold the answer to any job */
#define DLM_COUNTS ((size_t)8)            /* numbers that a plan counts */
#define DLM_MEMBERS ((size_t)16)          /* members of a tally: their numbers are 1 to 16 */
#define DLM_OFFSET_BYTES ((size_t)14)     /* bytes of an offset's text */
#define DLM_MOST_OFFSET INT64_C(1295999999)  /* the largest offset in milliarcseconds: +359 59 59.999 */

/* ------------------------------------------------------------------ refusals */

/* What an answer may say, and no other number. Where no step is named, the answer's step is 0. */
typedef enum dlm_refusal {
    DLM_NONE = 0,           /* no refusal: planned, agreed, finished, added, read, written, made */
    DLM_LIMITS = 1,         /* n is 0 or above 1,024, or there are more than 16,384 entries */
    DLM_STARTS = 2,         /* the row starts are not one more than the rows, do not begin with 0, fall, or do not end with the number of entries */
    DLM_COLUMN = 3,         /* a column is outside 1 to n */
    DLM_ORDER = 4,          /* the columns of a row do not ascend strictly */
    DLM_DIAGONAL = 5,       /* one of the first n rows lacks its diagonal */
    DLM_STORES = 6,         /* a starts store of the plan, a work store, or a store for a job's text, a tally, an offset or a test load has
                               another length than the one given with it below */
    DLM_LOWER_ROOM = 7,     /* an L subscript does not fit; the step */
    DLM_UPPER_ROOM = 8,     /* a U subscript does not fit; the step */
    DLM_OTHER_PLAN = 9,     /* the lent plan differs from the pattern's in some count, start or used subscript */
    DLM_LENDING = 10,       /* values not as many as entries, right side or x not as many as rows, pivots or d not n, or slots fewer than planned */
    DLM_VALUES = 11,        /* a value or right side is not finite */
    DLM_ROW_LIST = 12,      /* the row list is not n long, its row k is below k or above the row count, or a run is cut to more than n steps */
    DLM_NO_PIVOT = 13,      /* no row from k on, or not the listed row, has an entry of magnitude at least 2^-1022 in column k; the step k */
    DLM_NOT_FINITE = 14,    /* a quotient, product or difference is not finite; the step, in back substitution the row */
    DLM_JOB_COMMAND = 15,   /* job: a command byte is unknown or stands where it may not, or R names another row than the next */
    DLM_JOB_ENDS = 16,      /* job: the bytes end inside or before a command */
    DLM_JOB_GOES_ON = 17,   /* job: bytes follow Z */
    DLM_JOB_TOO_LONG = 18,  /* job: it is over 16,384 bytes */
    DLM_TALLY_FULL = 19,    /* the member's sum in the tally would pass 4,294,967,295; the tally stays as it was */
    DLM_NO_DIVISOR = 23,    /* the divisor d of a test load is 0 */
    DLM_HEIGHT = 25,        /* the rows are fewer than n or more than 2,048 */
    DLM_TALL = 26,          /* a system with more rows than n is to be solved: it can be run only when cut */
    DLM_NO_MEMBER = 27,     /* the member number is outside 1 to 16; the tally stays as it was */
    DLM_OFFSET_TEXT = 28,   /* the text is not an offset such as +012 34 56.789 (14 bytes, below 360 degrees), or it is minus zero */
    DLM_OFFSET_BEYOND = 29  /* the number of milliarcseconds is not finite or rounds beyond the largest, 1,295,999,999 */
} dlm_refusal;

/* The sentence of a refusal's number, without a full stop. */
static inline const char *dlm_sentence(size_t number)
{
    switch (number) {
    case 0: return "no refusal";
    case 1: return "n is 0 or above 1,024, or there are more than 16,384 entries";
    case 2: return "the row starts are not one more than the rows, do not begin with 0, fall, or do not end with the number of entries";
    case 3: return "a column is outside 1 to n";
    case 4: return "the columns of a row do not ascend strictly";
    case 5: return "one of the first n rows lacks its diagonal";
    case 6: return "a starts store of the plan, a work store, or a store for a job's text, a tally, an offset or a test load has a wrong length";
    case 7: return "an L subscript does not fit into its store";
    case 8: return "a U subscript does not fit into its store";
    case 9: return "the lent plan is not this pattern's: some count, start or used subscript differs";
    case 10: return "values are not as many as entries, right side or x not as many as rows, pivots or d not n, or slots fewer than planned";
    case 11: return "a value or right side is not finite";
    case 12: return "the row list is not n long, its row k is below k or above the row count, or the run is cut to more than n steps";
    case 13: return "no row from the step on, or not the listed row, has an entry of magnitude at least 2^-1022 in the step's column";
    case 14: return "a quotient, product or difference is not finite";
    case 15: return "job: a command byte is unknown or stands where it may not, or R names another row than the next";
    case 16: return "job: the bytes end inside or before a command";
    case 17: return "job: bytes follow Z";
    case 18: return "job: it is over 16,384 bytes";
    case 19: return "the member's sum in the tally would pass 4,294,967,295; the tally stays as it was";
    case 23: return "the divisor d of a test load is 0";
    case 25: return "the rows are fewer than n or more than 2,048";
    case 26: return "a system with more rows than n is to be solved: it can be run only when cut";
    case 27: return "the member number is outside 1 to 16; the tally stays as it was";
    case 28: return "the text is not an offset such as +012 34 56.789 (14 bytes, below 360 degrees), or it is minus zero";
    case 29: return "the number of milliarcseconds is not finite or rounds beyond the largest, 1,295,999,999";
    default: return "no refusal has this number";
    }
}

/* The answer of a call. */
typedef struct dlm_answer {
    dlm_refusal refusal;
    size_t step;  /* with 7, 8, 13 and 14 the step (14 in back substitution: the row); else 0 */
} dlm_answer;

/* ------------------------------------------------------------------ stores */

/* A store of numbers, and one of reals, that a call may write. */
typedef struct dlm_numbers {
    size_t *at;
    size_t length;
} dlm_numbers;

typedef struct dlm_reals {
    double *at;
    size_t length;
} dlm_reals;

/* Where entries may stand, row after row. */
typedef struct dlm_pattern {
    size_t n;               /* columns, 1 to 1,024 */
    size_t height;          /* rows, n to 2,048; n for a square */
    const size_t *starts;   /* row i has the columns at places starts[i-1] to starts[i]-1; starts[0] is 0, starts[height] is entries */
    size_t starts_length;   /* height+1 */
    const size_t *columns;  /* column numbers, 1 to n, strictly ascending in each row; in the first n rows the diagonal among them. A row above n
                               may be empty */
    size_t entries;         /* how many: at most 16,384 */
} dlm_pattern;

/* The numbers of one system on a pattern. */
typedef struct dlm_system {
    const double *values;  /* one for each column number of the pattern, in the same order; finite, zero of either sign allowed */
    size_t values_length;  /* entries */
    const double *right;   /* the right side; finite */
    size_t right_length;   /* height */
} dlm_system;

/* The eight counts of a plan (DLM_COUNTS), in the order in which the library numbers them. */
typedef struct dlm_counts {
    size_t n;
    size_t height;        /* the row count */
    size_t entries;
    size_t l_subscripts;  /* used places of l_subs */
    size_t u_subscripts;  /* used places of u_subs */
    size_t l_slots;       /* value slots of L, the diagonal not among them */
    size_t u_slots;       /* value slots of U, the diagonal not among them */
    size_t reads;         /* members of lists that planning reads, by the papers' count */
} dlm_counts;

/* A plan: for each step k the rows of L and the columns of U beyond k, as shared subscripts, and where their value slots start.
   The list of step k on a side has slots[k] - slots[k-1] members, from subs[starts[k-1]] on; its values are at slots[k-1] on. */
typedef struct dlm_plan {
    dlm_counts counts;     /* zeros after a refusal */
    dlm_numbers l_subs;    /* any length; n(n-1)/2 and n for each row above n are always enough (proved), counts.l_subscripts are used */
    dlm_numbers l_starts;  /* n: a place among l_subs for each step */
    dlm_numbers l_slots;   /* n+1: a place among the values l for each step, at the end their number */
    dlm_numbers u_subs;    /* any length; n(n-1)/2 is always enough (proved), counts.u_subscripts are used */
    dlm_numbers u_starts;  /* n: a place among u_subs for each step */
    dlm_numbers u_slots;   /* n+1: a place among the values u for each step, at the end their number */
} dlm_plan;

/* Room that calls work in: any numbers before, zeros after. Planning and verifying use the first six alone. */
typedef struct dlm_work {
    dlm_numbers row_heads;  /* height+1 */
    dlm_numbers row_links;  /* height+1 */
    dlm_numbers set_heads;  /* height+1 */
    dlm_numbers set_links;  /* height+1 */
    dlm_numbers list;       /* height */
    dlm_numbers spare;      /* height */
    dlm_reals copy;         /* height */
    dlm_reals dense;        /* height+1 */
} dlm_work;

/* What a run leaves. After a cut run slots and diagonal have the places of the square, or of the rectangle of all rows and n columns, as they
   then are, x the right side. */
typedef struct dlm_factor {
    dlm_reals l;         /* at least counts.l_slots: multipliers, each where it was written (rows exchanged later do not move them) */
    dlm_reals u;         /* at least counts.u_slots: the rows of U beyond the diagonal */
    dlm_reals d;         /* n: the diagonal */
    dlm_reals x;         /* height: the solution */
    dlm_numbers pivots;  /* n: the pivot row of each step done, then 0 */
    size_t updates;      /* subtractions in the matrix; 0 after a refusal */
} dlm_factor;

/* How far a run goes. */
typedef struct dlm_extent {
    size_t cut;    /* 0: all steps and back substitution, of squares alone; else the first `steps` steps alone */
    size_t steps;  /* 0 to n; not read in a whole run */
} dlm_extent;

/* An offset, read or written: whole milliarcseconds. */
typedef struct dlm_offset {
    dlm_refusal refusal;
    int64_t whole;  /* -1,295,999,999 to 1,295,999,999; 0 after a refusal */
    double value;   /* the double equal to `whole`; never -0 */
} dlm_offset;

/* How long each store of the structs above must be, under the same names. */
typedef struct dlm_sizes {
    size_t starts, columns;                                                    /* pattern */
    size_t values, right, rows;                                                /* system and row list */
    size_t l_subs, l_starts, l_slots, u_subs, u_starts, u_slots;               /* plan */
    size_t row_heads, row_links, set_heads, set_links, list, spare, copy, dense; /* work */
    size_t l, u, d, x, pivots;                                                 /* factor; l and u may be longer */
} dlm_sizes;

/* A test load: a pattern, its values and a right side, all of them by a seed. Zeros after a refusal, n and entries too. */
typedef struct dlm_load {
    size_t n;             /* rows and columns */
    dlm_numbers starts;   /* n+1: row starts, as a pattern has them */
    dlm_numbers columns;  /* 16,384 (DLM_MOST_ENTRIES): column numbers, zeros behind the entries */
    dlm_reals values;     /* 16,384: a whole number from -1,000 to 1,000 for each column number, zeros behind */
    dlm_reals right;      /* n: whole numbers from -1,000 to 1,000 */
    size_t entries;       /* how many */
} dlm_load;

/* ------------------------------------------------------------------ the exported functions */

/*
 * In each, a store is a pointer, not NULL, followed by its length. `most` is the largest n that the caller takes; above 1,024 it means
 * 1,024. `answer` receives the number of the refusal (0: none), its step, then the values (0 after a refusal); a shorter store receives
 * as many as it has room for, a longer one zeros behind. The number is returned as well. The dlm_* functions below take care of all this.
 */

/* answer: number, step, and the eight counts. Refuses with 1, 25 and 2 to 8, in this order. */
size_t dalumiveth_plan(size_t most, size_t n, size_t height, const size_t *starts, size_t starts_length, const size_t *columns,
                       size_t columns_length, size_t *l_subs, size_t l_subs_length, size_t *l_starts, size_t l_starts_length,
                       size_t *l_slots, size_t l_slots_length, size_t *u_subs, size_t u_subs_length, size_t *u_starts,
                       size_t u_starts_length, size_t *u_slots, size_t u_slots_length, size_t *row_heads, size_t row_heads_length,
                       size_t *row_links, size_t row_links_length, size_t *set_heads, size_t set_heads_length, size_t *set_links,
                       size_t set_links_length, size_t *list, size_t list_length, size_t *spare, size_t spare_length, size_t *answer,
                       size_t answer_length);

/* counts: the eight counts of the lent plan; missing ones read as 0, further ones are not read. answer: number, step. Refuses with 1, 25, 2 to 6
   and 9, in this order. */
size_t dalumiveth_verify(size_t most, size_t n, size_t height, const size_t *starts, size_t starts_length, const size_t *columns,
                         size_t columns_length, const size_t *counts, size_t counts_length, const size_t *l_subs, size_t l_subs_length,
                         const size_t *l_starts, size_t l_starts_length, const size_t *l_slots, size_t l_slots_length,
                         const size_t *u_subs, size_t u_subs_length, const size_t *u_starts, size_t u_starts_length,
                         const size_t *u_slots, size_t u_slots_length, size_t *row_heads, size_t row_heads_length, size_t *row_links,
                         size_t row_links_length, size_t *set_heads, size_t set_heads_length, size_t *set_links,
                         size_t set_links_length, size_t *list, size_t list_length, size_t *spare, size_t spare_length, size_t *answer,
                         size_t answer_length);

/* by_list 0: by the largest entry, and rows is not read; else rows[k-1] is the pivot row of step k, from k to the row count. cut 0: a whole run,
   and steps is not read; else the first `steps` steps. answer: number, step, updates. Refuses with 1, 25, 2 to 6, 26 and 9 to 14, in this
   order, 13 and 14 as the run meets them. */
size_t dalumiveth_run(size_t most, size_t n, size_t height, const size_t *starts, size_t starts_length, const size_t *columns,
                      size_t columns_length, const size_t *counts, size_t counts_length, const size_t *l_subs, size_t l_subs_length,
                      const size_t *l_starts, size_t l_starts_length, const size_t *l_slots, size_t l_slots_length,
                      const size_t *u_subs, size_t u_subs_length, const size_t *u_starts, size_t u_starts_length, const size_t *u_slots,
                      size_t u_slots_length, const double *values, size_t values_length, const double *right, size_t right_length,
                      size_t by_list, const size_t *rows, size_t rows_length, size_t cut, size_t steps, double *l, size_t l_length,
                      double *u, size_t u_length, double *d, size_t d_length, double *x, size_t x_length, size_t *pivots,
                      size_t pivots_length, size_t *row_heads, size_t row_heads_length, size_t *row_links, size_t row_links_length,
                      size_t *set_heads, size_t set_heads_length, size_t *set_links, size_t set_links_length, size_t *list,
                      size_t list_length, size_t *spare, size_t spare_length, double *copy, size_t copy_length, double *dense,
                      size_t dense_length, size_t *answer, size_t answer_length);

/* counters: 16 places (DLM_MEMBERS), member 1's first: the updates are added to the member's, the others hold what they held. answer: number (0,
   6, 27 or 19), step 0, and the member's new sum. A `counters` of another length is 6, whatever the member is; a member number outside 1 to
   16 is 27, whatever the updates are. After a refusal all counters are as they were: the tally is no result store. */
size_t dalumiveth_tally_add(uint32_t *counters, size_t counters_length, size_t member, size_t updates, size_t *answer, size_t answer_length);

/* out: 8,192 places (DLM_MOST_PRINTED), room for every answer (proved): the bytes that are printed for the job, zeros behind. answer: number (0 or
   6), step 0, and how many bytes are printed. An `out` of another length is 6 and all zeros. What is wrong with the job is printed, and is
   no refusal of the call. */
size_t dalumiveth_job(const uint8_t *job, size_t job_length, uint8_t *out, size_t out_length, size_t *answer, size_t answer_length);

/* An offset in degrees, minutes and seconds is 14 bytes such as +012 34 56.789, with no zero byte behind them: sign, three digits of degrees
   (000 to 359), space, two of minutes, space, two of seconds (both 00 to 59), point, three of thousandths. Zero has plus.

   value: one place: the double equal to the whole milliarcseconds, +0 after a refusal. answer: number (0, 6 or 28), step 0, 1 where the
   whole number is below zero (else 0), and its size. A `value` of another length is 6, whatever the text is; any other text is 28. */
size_t dalumiveth_read_offset(const uint8_t *text, size_t text_length, double *value, size_t value_length, size_t *answer,
                              size_t answer_length);

/* value: milliarcseconds; the nearest whole number is written, the even one at a half. out: 14 places (DLM_OFFSET_BYTES): the text, zeros after
   a refusal. answer: number (0, 6 or 29), step 0, 1 where the written number is below zero (else 0), and its size. An `out` of another length
   is 6, whatever the value is; a value that is not finite or rounds beyond 1,295,999,999 is 29. */
size_t dalumiveth_write_offset(double value, uint8_t *out, size_t out_length, size_t *answer, size_t answer_length);

/* A test load that a seed names. starts: n+1 places; columns and values: 16,384 each (DLM_MOST_ENTRIES); right: n. The diagonal is present, and
   of the other places those whose draw divides by d without rest, about one in d (docs/CALLS.md has the draws). answer: number (0, 1, 23 or 6),
   step 0, and how many entries there are; behind them columns and values are zeros. An n of 0 or above 1,024 is 1, whatever d is; a d of 0 is
   23, whatever the lengths are; then a store of another length is 6; then a load that would pass 16,384 entries is 1. After a refusal all four
   stores are zeros throughout. */
size_t dalumiveth_load(uint32_t seed, size_t n, size_t d, size_t *starts, size_t starts_length, size_t *columns, size_t columns_length,
                       double *values, size_t values_length, double *right, size_t right_length, size_t *answer, size_t answer_length);

/* ------------------------------------------------------------------ lending */

/* The library takes no NULL, not even for a store without places. These give it the address of a place that it neither reads nor writes. */
static inline size_t *dlm_numbers_at(dlm_numbers store)
{
    static size_t nowhere;
    return store.at != NULL ? store.at : &nowhere;
}

static inline double *dlm_reals_at(dlm_reals store)
{
    static double nowhere;
    return store.at != NULL ? store.at : &nowhere;
}

static inline const size_t *dlm_read_numbers(const size_t *at)
{
    static const size_t nowhere = 0;
    return at != NULL ? at : &nowhere;
}

static inline const double *dlm_read_reals(const double *at)
{
    static const double nowhere = 0;
    return at != NULL ? at : &nowhere;
}

/* A store as the two arguments that an exported function takes for it. */
#define DLM_NUMBERS(store) dlm_numbers_at(store), ((store).at != NULL ? (store).length : 0)
#define DLM_REALS(store) dlm_reals_at(store), ((store).at != NULL ? (store).length : 0)
#define DLM_READ_NUMBERS(at, length) dlm_read_numbers(at), ((at) != NULL ? (length) : 0)
#define DLM_READ_REALS(at, length) dlm_read_reals(at), ((at) != NULL ? (length) : 0)

/* The arguments that several functions take in the same order. */
#define DLM_PATTERN(p) \
    DLM_MOST_N, (p)->n, (p)->height, DLM_READ_NUMBERS((p)->starts, (p)->starts_length), DLM_READ_NUMBERS((p)->columns, (p)->entries)
#define DLM_PLAN(p) \
    DLM_NUMBERS((p)->l_subs), DLM_NUMBERS((p)->l_starts), DLM_NUMBERS((p)->l_slots), DLM_NUMBERS((p)->u_subs), \
        DLM_NUMBERS((p)->u_starts), DLM_NUMBERS((p)->u_slots)
#define DLM_SYSTEM(s) DLM_READ_REALS((s)->values, (s)->values_length), DLM_READ_REALS((s)->right, (s)->right_length)
#define DLM_FACTOR(f) \
    DLM_REALS((f)->l), DLM_REALS((f)->u), DLM_REALS((f)->d), DLM_REALS((f)->x), DLM_NUMBERS((f)->pivots)
#define DLM_WORK(w) \
    DLM_NUMBERS((w)->row_heads), DLM_NUMBERS((w)->row_links), DLM_NUMBERS((w)->set_heads), DLM_NUMBERS((w)->set_links), \
        DLM_NUMBERS((w)->list), DLM_NUMBERS((w)->spare)

/* Number and step of an answer in numbers. */
static inline dlm_answer dlm_answer_in(const size_t *numbers)
{
    dlm_answer answer;
    answer.refusal = (dlm_refusal)numbers[0];
    answer.step = numbers[1];
    return answer;
}

/* The counts as the eight numbers that verifying and running read. */
static inline void dlm_counts_out(const dlm_counts *counts, size_t numbers[DLM_COUNTS])
{
    numbers[0] = counts->n;
    numbers[1] = counts->height;
    numbers[2] = counts->entries;
    numbers[3] = counts->l_subscripts;
    numbers[4] = counts->u_subscripts;
    numbers[5] = counts->l_slots;
    numbers[6] = counts->u_slots;
    numbers[7] = counts->reads;
}

static inline dlm_counts dlm_counts_in(const size_t numbers[DLM_COUNTS])
{
    dlm_counts counts;
    counts.n = numbers[0];
    counts.height = numbers[1];
    counts.entries = numbers[2];
    counts.l_subscripts = numbers[3];
    counts.u_subscripts = numbers[4];
    counts.l_slots = numbers[5];
    counts.u_slots = numbers[6];
    counts.reads = numbers[7];
    return counts;
}

/* ------------------------------------------------------------------ sizes */

/* The part of the sizes that n, the row count and the entries decide. */
static inline dlm_sizes dlm_sizes_by_rows(size_t n, size_t height, size_t entries)
{
    dlm_sizes sizes;
    sizes.columns = sizes.values = entries;
    sizes.starts = height + 1;
    sizes.right = sizes.x = height;
    sizes.rows = sizes.d = sizes.pivots = n;
    sizes.l_starts = sizes.u_starts = n;
    sizes.l_slots = sizes.u_slots = n + 1;
    sizes.row_heads = sizes.row_links = sizes.set_heads = sizes.set_links = height + 1;
    sizes.list = sizes.spare = sizes.copy = height;
    sizes.dense = height + 1;
    sizes.u_subs = sizes.u = n * (n - 1) / 2;
    sizes.l_subs = sizes.l = n * (n - 1) / 2 + n * (height - n);
    return sizes;
}

/* How long each store must be for a pattern of so many rows. Before planning (`planned` NULL) subscripts and slots are what is always enough,
   n(n-1)/2 a side and in L n more for each row above n; once planned, what the plan uses. For an n or entries that are refused with 1, or a
   row count that is refused with 25, all sizes are 0. */
static inline dlm_sizes dlm_tall_sizes_for(size_t n, size_t height, size_t entries, const dlm_counts *planned)
{
    static const dlm_sizes none = {0, 0, 0, 0, 0, 0, 0, 0, 0, 0, 0, 0, 0, 0, 0, 0, 0, 0, 0, 0, 0, 0, 0, 0};
    dlm_sizes sizes;
    if (n == 0 || n > DLM_MOST_N || entries > DLM_MOST_ENTRIES || height < n || height > DLM_MOST_HEIGHT)
        return none;
    sizes = dlm_sizes_by_rows(n, height, entries);
    if (planned != NULL) {
        sizes.l_subs = planned->l_subscripts;
        sizes.u_subs = planned->u_subscripts;
        sizes.l = planned->l_slots;
        sizes.u = planned->u_slots;
    }
    return sizes;
}

/* The same for a square. */
static inline dlm_sizes dlm_sizes_for(size_t n, size_t entries, const dlm_counts *planned)
{
    return dlm_tall_sizes_for(n, n, entries, planned);
}

/* ------------------------------------------------------------------ patterns */

/* A pattern of so many rows in the caller's own stores, whose lengths are height+1 and entries. */
static inline dlm_pattern dlm_tall_pattern_of(size_t n, size_t height, const size_t *starts, const size_t *columns, size_t entries)
{
    dlm_pattern pattern;
    pattern.n = n;
    pattern.height = height;
    pattern.starts = starts;
    pattern.starts_length = height + 1;
    pattern.columns = columns;
    pattern.entries = entries;
    return pattern;
}

/* The same for a square: n+1 row starts. */
static inline dlm_pattern dlm_pattern_of(size_t n, const size_t *starts, const size_t *columns, size_t entries)
{
    return dlm_tall_pattern_of(n, n, starts, columns, entries);
}

/* From compressed rows that count columns from 0: height+1 row starts and `entries` columns, into stores of the same lengths. The order of the
   columns is kept: a row whose columns do not ascend is refused with 4 in planning, one of the first n without its diagonal with 5. */
static inline dlm_pattern dlm_tall_pattern_from_csr(size_t n, size_t height, const size_t *csr_starts, const size_t *csr_columns,
                                                    size_t entries, size_t *starts, size_t *columns)
{
    size_t place;
    for (place = 0; place <= height; place++)
        starts[place] = csr_starts[place];
    for (place = 0; place < entries; place++)
        columns[place] = csr_columns[place] + 1; /* the largest size_t turns into 0, which is refused with 3 */
    return dlm_tall_pattern_of(n, height, starts, columns, entries);
}

/* The same for a square. */
static inline dlm_pattern dlm_pattern_from_csr(size_t n, const size_t *csr_starts, const size_t *csr_columns, size_t entries,
                                               size_t *starts, size_t *columns)
{
    return dlm_tall_pattern_from_csr(n, n, csr_starts, csr_columns, entries, starts, columns);
}

/* The same two from int. A negative start is refused with 2 in planning, a negative column with 3. */
static inline dlm_pattern dlm_tall_pattern_from_csr_int(size_t n, size_t height, const int *csr_starts, const int *csr_columns,
                                                        size_t entries, size_t *starts, size_t *columns)
{
    size_t place;
    for (place = 0; place <= height; place++)
        starts[place] = csr_starts[place] < 0 ? SIZE_MAX : (size_t)csr_starts[place];
    for (place = 0; place < entries; place++)
        columns[place] = csr_columns[place] < 0 ? 0 : (size_t)csr_columns[place] + 1;
    return dlm_tall_pattern_of(n, height, starts, columns, entries);
}

static inline dlm_pattern dlm_pattern_from_csr_int(size_t n, const int *csr_starts, const int *csr_columns, size_t entries,
                                                   size_t *starts, size_t *columns)
{
    return dlm_tall_pattern_from_csr_int(n, n, csr_starts, csr_columns, entries, starts, columns);
}

/* Values and right side in the caller's own stores: one for each entry, and one for each row. */
static inline dlm_system dlm_system_of(const double *values, size_t entries, const double *right, size_t height)
{
    dlm_system system;
    system.values = values;
    system.values_length = entries;
    system.right = right;
    system.right_length = height;
    return system;
}

/* ------------------------------------------------------------------ calls */

/* Makes the plan of a pattern. Refuses with 1, 25 and 2 to 8. */
static inline dlm_answer dlm_make_plan(const dlm_pattern *pattern, dlm_plan *plan, dlm_work *work)
{
    size_t answer[2 + DLM_COUNTS] = {0};
    dalumiveth_plan(DLM_PATTERN(pattern), DLM_PLAN(plan), DLM_WORK(work), answer, 2 + DLM_COUNTS);
    plan->counts = dlm_counts_in(answer + 2);
    return dlm_answer_in(answer);
}

/* Says whether a plan is this pattern's: no refusal, or 1, 25, 2 to 6 or 9. A plan kept from before subscripts were shared with the end of the whole
   store (document 02, ticket 5) is 9 where its lists lie otherwise: plan anew. */
static inline dlm_answer dlm_verify_plan(const dlm_pattern *pattern, const dlm_plan *plan, dlm_work *work)
{
    size_t answer[2] = {0};
    size_t counts[DLM_COUNTS];
    dlm_counts_out(&plan->counts, counts);
    dalumiveth_verify(DLM_PATTERN(pattern), counts, DLM_COUNTS, DLM_PLAN(plan), DLM_WORK(work), answer, 2);
    return dlm_answer_in(answer);
}

static inline dlm_extent dlm_whole(void)
{
    dlm_extent extent;
    extent.cut = 0;
    extent.steps = 0;
    return extent;
}

/* The first `steps` steps, without back substitution. */
static inline dlm_extent dlm_cut(size_t steps)
{
    dlm_extent extent;
    extent.cut = 1;
    extent.steps = steps;
    return extent;
}

/* A run, by the largest entry or by the list: the part that the two functions below share. */
static inline dlm_answer dlm_run_by(size_t by_list, const dlm_pattern *pattern, const dlm_plan *plan, const dlm_system *system,
                                    const size_t *rows, size_t rows_length, dlm_extent extent, dlm_factor *factor, dlm_work *work)
{
    size_t answer[3] = {0};
    size_t counts[DLM_COUNTS];
    dlm_counts_out(&plan->counts, counts);
    dalumiveth_run(DLM_PATTERN(pattern), counts, DLM_COUNTS, DLM_PLAN(plan), DLM_SYSTEM(system), by_list,
                   DLM_READ_NUMBERS(rows, rows_length), extent.cut, extent.steps, DLM_FACTOR(factor), DLM_WORK(work),
                   DLM_REALS(work->copy), DLM_REALS(work->dense), answer, 3);
    factor->updates = answer[2];
    return dlm_answer_in(answer);
}

/* Eliminates and solves; the pivot row of step k is the row from k on with the largest magnitude in column k, the lowest if equal.
   One of a magnitude below 2^-1022 is no pivot: 13. Refuses with 1, 25, 2 to 6, 26 and 9 to 14. 26: a pattern with more rows than n is run
   only when cut, dlm_cut(n) at most. */
static inline dlm_answer dlm_run_largest(const dlm_pattern *pattern, const dlm_plan *plan, const dlm_system *system, dlm_extent extent,
                                         dlm_factor *factor, dlm_work *work)
{
    return dlm_run_by(0, pattern, plan, system, NULL, 0, extent, factor, work);
}

/* The same with the pivot row of step k given as rows[k-1], from k to the row count; rows_length must be n. */
static inline dlm_answer dlm_run_listed(const dlm_pattern *pattern, const dlm_plan *plan, const dlm_system *system, const size_t *rows,
                                        size_t rows_length, dlm_extent extent, dlm_factor *factor, dlm_work *work)
{
    return dlm_run_by(1, pattern, plan, system, rows, rows_length, extent, factor, work);
}

/* Makes the test load of a seed, in stores that dlm_load_allocate gives for the same n. The same seed, n and d give the same load everywhere. Refuses
   with 1 (n), 23, 6 and 1 (too many entries), in this order. A seed has 32 bits: of a larger number C itself passes on the lowest 32. */
static inline dlm_answer dlm_make_load(uint32_t seed, size_t n, size_t d, dlm_load *load)
{
    size_t answer[3] = {0};
    dalumiveth_load(seed, n, d, DLM_NUMBERS(load->starts), DLM_NUMBERS(load->columns), DLM_REALS(load->values), DLM_REALS(load->right), answer, 3);
    load->n = answer[0] == 0 ? n : 0;
    load->entries = answer[2];
    return dlm_answer_in(answer);
}

/* A load's pattern, in the load's own stores: they have to live, and no other load may be made in them, as long as it is used. After a
   refusal its n is 0, which no call takes. */
static inline dlm_pattern dlm_pattern_of_load(const dlm_load *load)
{
    dlm_pattern pattern = dlm_pattern_of(load->n, load->starts.at, load->columns.at, load->entries);
    pattern.starts_length = load->starts.length;
    return pattern;
}

/* Its values and right side, likewise. */
static inline dlm_system dlm_system_of_load(const dlm_load *load)
{
    return dlm_system_of(load->values.at, load->entries, load->right.at, load->right.length);
}

/* A tally that stays with the caller: a sum of updates for each member, member m's at place m-1. An empty one has zeros, dlm_tally tally = {{0}};
   one that was saved goes on with its sixteen sums in `counters`. */
typedef struct dlm_tally {
    uint32_t counters[DLM_MEMBERS];
} dlm_tally;

/* Adds the updates of a finished run to the sum of its member, 1 to 16. Refuses with 27 where there is no such member, and with 19 where its
   sum would pass the largest: the tally stays as it was. A NULL is a store without places (6). */
static inline dlm_answer dlm_tally_add(dlm_tally *tally, size_t member, size_t updates)
{
    uint32_t nowhere = 0;
    size_t answer[3] = {0};
    dalumiveth_tally_add(tally != NULL ? tally->counters : &nowhere, tally != NULL ? DLM_MEMBERS : 0, member, updates, answer, 3);
    return dlm_answer_in(answer);
}

/* What the job program prints for the bytes of a job: `out` has 8,192 places (DLM_MOST_PRINTED). Returns how many of them are printed; zeros
   stand behind. A refusal of the job is printed too, so that there is always a byte; 0 is returned where `out` is NULL, a store without
   places (6). */
static inline size_t dlm_answer_job(const uint8_t *job, size_t job_length, uint8_t *out)
{
    static const uint8_t nothing = 0;
    uint8_t nowhere = 0;
    size_t answer[3] = {0};
    dalumiveth_job(job != NULL ? job : &nothing, job != NULL ? job_length : 0, out != NULL ? out : &nowhere,
                   out != NULL ? DLM_MOST_PRINTED : 0, answer, 3);
    return answer[2];
}

/* The offset that an answer in four numbers holds. */
static inline dlm_offset dlm_offset_in(const size_t numbers[4])
{
    dlm_offset offset;
    offset.refusal = (dlm_refusal)numbers[0];
    offset.whole = numbers[2] != 0 ? -(int64_t)numbers[3] : (int64_t)numbers[3];
    offset.value = (double)offset.whole; /* exact: it has 31 bits */
    return offset;
}

/* Reads an offset such as +012 34 56.789: 14 bytes, a terminating zero is none of them. Any other text is 28, minus zero too. */
static inline dlm_offset dlm_read_offset(const char *text, size_t length)
{
    static const char nothing = 0;
    size_t answer[4] = {0};
    double value = 0;
    dlm_offset offset;
    dalumiveth_read_offset((const uint8_t *)(text != NULL ? text : &nothing), text != NULL ? length : 0, &value, 1, answer, 4);
    offset = dlm_offset_in(answer);
    offset.value = value;
    return offset;
}

/* Writes the nearest whole number of milliarcseconds, the even one at a half, and answers it. `text` has 14 places (DLM_OFFSET_BYTES) and gets
   no terminating zero: printf takes it by "%.14s". A value that is not finite or rounds beyond the largest is 29, and the text is zeros; a
   NULL is a store without places (6). */
static inline dlm_offset dlm_write_offset(double value, char *text)
{
    uint8_t nowhere = 0;
    size_t answer[4] = {0};
    dalumiveth_write_offset(value, text != NULL ? (uint8_t *)text : &nowhere, text != NULL ? DLM_OFFSET_BYTES : 0, answer, 4);
    return dlm_offset_in(answer);
}

/* ------------------------------------------------------------------ the places of square and rectangle */

/* Where `wanted` stands in the list of step k on a side: its value slot through `slot` and 1, or 0 if the list does not have it. */
static inline int dlm_slot_in(const dlm_numbers *subs, const dlm_numbers *starts, const dlm_numbers *slots, size_t k, size_t wanted,
                              size_t *slot)
{
    const size_t *list = subs->at + starts->at[k - 1];
    size_t low = 0;
    size_t high = slots->at[k] - slots->at[k - 1];
    while (low < high) {
        size_t middle = low + (high - low) / 2;
        if (list[middle] == wanted) {
            *slot = slots->at[k - 1] + middle;
            return 1;
        }
        if (list[middle] < wanted)
            low = middle + 1;
        else
            high = middle;
    }
    return 0;
}

/* The number that place (row, column) of the square, or of the rectangle of all rows and n columns, has after a run, L below the diagonal and U
   above; the plan is one that was made or verified here. A place without a slot is +0, as is proved of the full one; so is one outside. */
static inline double dlm_number_at(const dlm_plan *plan, const dlm_factor *factor, size_t row, size_t column)
{
    size_t slot = 0;
    if (row == 0 || column == 0 || row > plan->counts.height || column > plan->counts.n)
        return 0;
    if (row == column)
        return factor->d.at[row - 1];
    if (row < column)
        return dlm_slot_in(&plan->u_subs, &plan->u_starts, &plan->u_slots, row, column, &slot) ? factor->u.at[slot] : 0;
    return dlm_slot_in(&plan->l_subs, &plan->l_starts, &plan->l_slots, column, row, &slot) ? factor->l.at[slot] : 0;
}

/* ------------------------------------------------------------------ allocation */

/*
 * A pair for each struct: ..._allocate gives every store its length of `sizes` (to a load: the length that its n wants), filled with
 * zeros, and answers 1; if there is no memory it keeps none, leaves stores without places and answers 0. ..._free gives the stores back and
 * leaves stores without places. Callers with stores of their own use neither.
 */

/* One place at least, so that NULL means that there is no memory. */
static inline int dlm_numbers_allocate(dlm_numbers *store, size_t length)
{
    store->at = length <= SIZE_MAX / sizeof(size_t) ? (size_t *)calloc(length > 0 ? length : 1, sizeof(size_t)) : NULL;
    store->length = store->at != NULL ? length : 0;
    return store->at != NULL;
}

static inline int dlm_reals_allocate(dlm_reals *store, size_t length)
{
    store->at = length <= SIZE_MAX / sizeof(double) ? (double *)calloc(length > 0 ? length : 1, sizeof(double)) : NULL;
    store->length = store->at != NULL ? length : 0;
    return store->at != NULL;
}

static inline void dlm_numbers_free(dlm_numbers *store)
{
    free(store->at);
    store->at = NULL;
    store->length = 0;
}

static inline void dlm_reals_free(dlm_reals *store)
{
    free(store->at);
    store->at = NULL;
    store->length = 0;
}

static inline void dlm_plan_free(dlm_plan *plan)
{
    static const size_t none[DLM_COUNTS] = {0};
    plan->counts = dlm_counts_in(none);
    dlm_numbers_free(&plan->l_subs);
    dlm_numbers_free(&plan->l_starts);
    dlm_numbers_free(&plan->l_slots);
    dlm_numbers_free(&plan->u_subs);
    dlm_numbers_free(&plan->u_starts);
    dlm_numbers_free(&plan->u_slots);
}

/* Every store is asked for even if one before it failed, so that freeing finds all of them set: hence & and not &&. */
static inline int dlm_plan_allocate(dlm_plan *plan, const dlm_sizes *sizes)
{
    static const size_t none[DLM_COUNTS] = {0};
    int all = dlm_numbers_allocate(&plan->l_subs, sizes->l_subs) & dlm_numbers_allocate(&plan->l_starts, sizes->l_starts) &
              dlm_numbers_allocate(&plan->l_slots, sizes->l_slots) & dlm_numbers_allocate(&plan->u_subs, sizes->u_subs) &
              dlm_numbers_allocate(&plan->u_starts, sizes->u_starts) & dlm_numbers_allocate(&plan->u_slots, sizes->u_slots);
    plan->counts = dlm_counts_in(none);
    if (!all)
        dlm_plan_free(plan);
    return all;
}

static inline void dlm_work_free(dlm_work *work)
{
    dlm_numbers_free(&work->row_heads);
    dlm_numbers_free(&work->row_links);
    dlm_numbers_free(&work->set_heads);
    dlm_numbers_free(&work->set_links);
    dlm_numbers_free(&work->list);
    dlm_numbers_free(&work->spare);
    dlm_reals_free(&work->copy);
    dlm_reals_free(&work->dense);
}

static inline int dlm_work_allocate(dlm_work *work, const dlm_sizes *sizes)
{
    int all = dlm_numbers_allocate(&work->row_heads, sizes->row_heads) & dlm_numbers_allocate(&work->row_links, sizes->row_links) &
              dlm_numbers_allocate(&work->set_heads, sizes->set_heads) & dlm_numbers_allocate(&work->set_links, sizes->set_links) &
              dlm_numbers_allocate(&work->list, sizes->list) & dlm_numbers_allocate(&work->spare, sizes->spare) &
              dlm_reals_allocate(&work->copy, sizes->copy) & dlm_reals_allocate(&work->dense, sizes->dense);
    if (!all)
        dlm_work_free(work);
    return all;
}

static inline void dlm_factor_free(dlm_factor *factor)
{
    factor->updates = 0;
    dlm_reals_free(&factor->l);
    dlm_reals_free(&factor->u);
    dlm_reals_free(&factor->d);
    dlm_reals_free(&factor->x);
    dlm_numbers_free(&factor->pivots);
}

static inline int dlm_factor_allocate(dlm_factor *factor, const dlm_sizes *sizes)
{
    int all = dlm_reals_allocate(&factor->l, sizes->l) & dlm_reals_allocate(&factor->u, sizes->u) &
              dlm_reals_allocate(&factor->d, sizes->d) & dlm_reals_allocate(&factor->x, sizes->x) &
              dlm_numbers_allocate(&factor->pivots, sizes->pivots);
    factor->updates = 0;
    if (!all)
        dlm_factor_free(factor);
    return all;
}

static inline void dlm_load_free(dlm_load *load)
{
    load->n = 0;
    load->entries = 0;
    dlm_numbers_free(&load->starts);
    dlm_numbers_free(&load->columns);
    dlm_reals_free(&load->values);
    dlm_reals_free(&load->right);
}

/* For a load of n rows; for an n that is refused with 1, stores without places. */
static inline int dlm_load_allocate(dlm_load *load, size_t n)
{
    dlm_sizes sizes = dlm_sizes_for(n, DLM_MOST_ENTRIES, NULL);
    int all = dlm_numbers_allocate(&load->starts, sizes.starts) & dlm_numbers_allocate(&load->columns, sizes.columns) &
              dlm_reals_allocate(&load->values, sizes.values) & dlm_reals_allocate(&load->right, sizes.right);
    load->n = 0;
    load->entries = 0;
    if (!all)
        dlm_load_free(load);
    return all;
}

#ifdef __cplusplus
}
#endif

#endif
