/* Document 02, ticket 6, written down plainly: numbers of 64 bits and their rests, a list of entries. Nothing here is taken from the library. */
#ifndef PLAIN_LOAD_H
#define PLAIN_LOAD_H

#include "dalumiveth.h"

enum { PLAIN_LOAD_ROWS = 1024, PLAIN_LOAD_ENTRIES = 16384 };

/* How many places each store is lent with. */
typedef struct plain_lengths {
    size_t starts, columns, values, right;
} plain_lengths;

/* "Column and value stores are lent with 16,384 places each, row starts with n+1, right side with n" */
plain_lengths plain_load_lengths(size_t n);

/* A load: the refusal's number or 0, and what the stores hold before the zeros behind. After a refusal there is nothing. */
typedef struct plain_load {
    size_t number;
    size_t rows;
    size_t entries;
    size_t ends[PLAIN_LOAD_ROWS]; /* where each row ends among the entries */
    size_t columns[PLAIN_LOAD_ENTRIES];
    int values[PLAIN_LOAD_ENTRIES];
    int right[PLAIN_LOAD_ROWS];
} plain_load;

void plain_make_load(uint32_t seed, size_t n, size_t d, plain_lengths lengths, plain_load *load);

#endif
