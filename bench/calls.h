/* The three exported functions that are timed here, and the one that makes a test load, as include/dalumiveth.h declares them. docs/CALLS.md says
   what each store holds. */
#ifndef BENCH_CALLS_H
#define BENCH_CALLS_H
#include <stddef.h>
#include <stdint.h>

/* A slice is a pointer and how many elements stand there. */
#define READ(name) const size_t *name, size_t name##_length
#define WRITE(name) size_t *name, size_t name##_length
#define READ_NUMBERS(name) const double *name, size_t name##_length
#define WRITE_NUMBERS(name) double *name, size_t name##_length
#define PATTERN size_t most, size_t n, size_t height, READ(starts), READ(columns)
#define LENT_PLAN READ(counts), READ(l_subs), READ(l_starts), READ(l_slots), READ(u_subs), READ(u_starts), READ(u_slots)
#define WORK WRITE(row_heads), WRITE(row_links), WRITE(set_heads), WRITE(set_links), WRITE(list), WRITE(spare)

size_t dalumiveth_plan(PATTERN, WRITE(l_subs), WRITE(l_starts), WRITE(l_slots), WRITE(u_subs), WRITE(u_starts), WRITE(u_slots), WORK, WRITE(answer));
size_t dalumiveth_verify(PATTERN, LENT_PLAN, WORK, WRITE(answer));
size_t dalumiveth_run(PATTERN, LENT_PLAN, READ_NUMBERS(values), READ_NUMBERS(right), size_t by_list, READ(rows), size_t cut, size_t steps,
                      WRITE_NUMBERS(l), WRITE_NUMBERS(u), WRITE_NUMBERS(d), WRITE_NUMBERS(x), WRITE(pivots), WORK, WRITE_NUMBERS(copy),
                      WRITE_NUMBERS(dense), WRITE(answer));
size_t dalumiveth_load(uint32_t seed, size_t n, size_t d, WRITE(starts), WRITE(columns), WRITE_NUMBERS(values), WRITE_NUMBERS(right), WRITE(answer));
#endif
