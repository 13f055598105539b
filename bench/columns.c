#include "solver.h"

#include <stdlib.h>

struct by_columns columns_of(const struct pattern *p)
{
    struct by_columns c = {room(p->n + 1, sizeof(int)), room(p->entries, sizeof(int)), room(p->entries, sizeof(double))};
    int *end = room(p->n + 1, sizeof(int));
    for (size_t q = 0; q < p->entries; q++)
        c.starts[p->columns[q]]++;
    for (size_t j = 0; j < p->n; j++)
        end[j + 1] = c.starts[j + 1] += c.starts[j];
    for (size_t i = 0; i < p->n; i++)
        for (size_t q = p->starts[i]; q < p->starts[i + 1]; q++) {
            int at = end[p->columns[q] - 1]++;
            c.rows[at] = (int)i;
            c.values[at] = p->values[q];
        }
    free(end);
    return c;
}

void by_columns_free(struct by_columns *c)
{
    free(c->starts);
    free(c->rows);
    free(c->values);
}
