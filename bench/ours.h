/* The library on one pattern: its stores, and the three calls. */
#ifndef BENCH_OURS_H
#define BENCH_OURS_H
#include "pattern.h"

struct sizes {
    size_t *at, length;
};

struct numbers {
    double *at;
    size_t length;
};

enum { N, HEIGHT, ENTRIES, L_SUBSCRIPTS, U_SUBSCRIPTS, L_SLOTS, U_SLOTS, READS, COUNTS };

struct ours {
    const struct pattern *pattern;
    struct sizes counts, l_subs, l_starts, l_slots, u_subs, u_starts, u_slots, pivots;
    struct sizes row_heads, row_links, set_heads, set_links, list, spare;
    struct numbers l, u, d, x, copy, dense;
    size_t updates;
};

/* Plans once with room for any plan, then lends what this plan needs: so a call clears no more than it has written. */
void ours_prepare(struct ours *o, const struct pattern *p);
void ours_release(struct ours *o);
/* Each gives the refusal's number, 0 if there is none. */
size_t ours_plan(struct ours *o);
size_t ours_verify(struct ours *o);
size_t ours_run(struct ours *o);
#endif
