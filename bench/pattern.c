#include "pattern.h"

#include <stdint.h>
#include <stdio.h>
#include <stdlib.h>
#include <string.h>

#define SEED 1984
#define STRIP_HEIGHT 6000 /* a survey's strip in thousandths of the mean distance of fields */
#define NEAR 4
#define FIELDS_A_LONG_TIE 64
#define TAIL 16 /* the last fields, of which all others use all but one */

void *room(size_t count, size_t size)
{
    void *p = calloc(count ? count : 1, size);
    if (!p) {
        fprintf(stderr, "bench: no memory\n");
        exit(3);
    }
    return p;
}

/* ---- numbers by chance (splitmix64) */

static uint64_t chance_state;

static uint64_t chance(void)
{
    uint64_t z = chance_state += 0x9E3779B97F4A7C15u;
    z = (z ^ z >> 30) * 0xBF58476D1CE4E5B9u;
    z = (z ^ z >> 27) * 0x94D049BB133111EBu;
    return z ^ z >> 31;
}

static size_t below(size_t limit) { return (size_t)(chance() % limit); }

/* Between -1 and 1 and not near 0, so that no run meets a column of zeros. */
static double value(void)
{
    for (;;) {
        double v = (double)(int64_t)(chance() >> 11) * 0x1p-52 - 1.0;
        if (v > 1e-3 || v < -1e-3)
            return v;
    }
}

/* ---- places, as a square of marks */

struct marks {
    size_t n;
    unsigned char *at;
};

static void mark(struct marks m, size_t i, size_t j) { m.at[i * m.n + j] = 1; }

static void tie(struct marks m, size_t i, size_t j)
{
    mark(m, i, j);
    mark(m, j, i);
}

static void mark_grid(struct marks m, size_t side)
{
    for (size_t y = 0; y < side; y++)
        for (size_t x = 0; x < side; x++) {
            size_t here = y * side + x;
            if (x + 1 < side)
                tie(m, here, here + 1);
            if (y + 1 < side)
                tie(m, here, here + side);
        }
}

static void mark_band(struct marks m, size_t width)
{
    for (size_t i = 0; i < m.n; i++)
        for (size_t j = i; j < m.n && j <= i + width; j++)
            tie(m, i, j);
}

static void mark_random(struct marks m, size_t width)
{
    for (size_t i = 0; i < m.n; i++)
        for (size_t set = 0; set < width;) {
            size_t j = below(m.n);
            if (j != i && !m.at[i * m.n + j]) {
                mark(m, i, j);
                set++;
            }
        }
}

static void mark_arrow(struct marks m, size_t full)
{
    for (size_t i = 0; i < m.n; i++)
        tie(m, i, full);
}

/* Lists of U that share nothing, though each differs from the end of its store in the last but one subscript alone: even and odd fields leave
   out another of the last fields. So planning compares nearly all of every list, and then writes it. */
static void mark_unshared(struct marks m)
{
    for (size_t i = 0; i + TAIL < m.n; i++)
        for (size_t j = m.n - TAIL; j < m.n; j++)
            if (j != m.n - 2 - i % 2)
                mark(m, i, j);
}

struct field {
    int64_t along, across;
};

static int west_first(const void *a, const void *b)
{
    const struct field *f = a, *g = b;
    if (f->along != g->along)
        return f->along < g->along ? -1 : 1;
    return (f->across > g->across) - (f->across < g->across);
}

static int64_t apart(struct field f, struct field g)
{
    int64_t x = f.along - g.along, y = f.across - g.across;
    return x * x + y * y;
}

/* Field i is tied to the NEAR fields that lie nearest to it, the lower number first if equal. */
static void tie_near(struct marks m, const struct field *fields, size_t i)
{
    unsigned char *taken = room(m.n, 1);
    taken[i] = 1;
    for (size_t t = 0; t < NEAR && t + 1 < m.n; t++) {
        size_t best = m.n;
        for (size_t j = 0; j < m.n; j++)
            if (!taken[j] && (best == m.n || apart(fields[i], fields[j]) < apart(fields[i], fields[best])))
                best = j;
        taken[best] = 1;
        tie(m, i, best);
    }
    free(taken);
}

/* Fields scattered over a strip of the sky and numbered along it. The long ties stand for fields that were seen again much later. */
static void mark_survey(struct marks m)
{
    struct field *fields = room(m.n, sizeof *fields);
    for (size_t i = 0; i < m.n; i++) {
        fields[i].along = (int64_t)below(m.n * 1000000 / STRIP_HEIGHT);
        fields[i].across = (int64_t)below(STRIP_HEIGHT);
    }
    qsort(fields, m.n, sizeof *fields, west_first);
    for (size_t i = 0; i < m.n; i++)
        tie_near(m, fields, i);
    for (size_t t = 0; t < m.n / FIELDS_A_LONG_TIE; t++) {
        size_t i = below(m.n), j = below(m.n);
        tie(m, i, j);
    }
    free(fields);
}

static void mark_all(struct marks m, enum kind kind, size_t size, size_t width)
{
    switch (kind) {
    case GRID: mark_grid(m, size); break;
    case SURVEY: mark_survey(m); break;
    case STRIP: mark_band(m, 1); break;
    case BAND: mark_band(m, width); break;
    case RANDOM: mark_random(m, width); break;
    case ARROW_LAST: mark_arrow(m, m.n - 1); break;
    case ARROW_FIRST: mark_arrow(m, 0); break;
    case DENSE: memset(m.at, 1, m.n * m.n); break;
    case UNSHARED: mark_unshared(m); break;
    }
    for (size_t i = 0; i < m.n; i++)
        mark(m, i, i);
}

/* ---- from marks to what the library takes */

static void list_places(struct pattern *p, struct marks m)
{
    for (size_t q = 0; q < m.n * m.n; q++)
        p->entries += m.at[q];
    p->starts = room(m.n + 1, sizeof *p->starts);
    p->columns = room(p->entries, sizeof *p->columns);
    size_t end = 0;
    for (size_t i = 0; i < m.n; i++) {
        for (size_t j = 0; j < m.n; j++)
            if (m.at[i * m.n + j])
                p->columns[end++] = j + 1;
        p->starts[i + 1] = end;
    }
}

/* A dominant diagonal keeps every row where it is; without one, rows are exchanged in most steps. */
static void give_values(struct pattern *p, int dominant)
{
    p->values = room(p->entries, sizeof *p->values);
    p->right = room(p->n, sizeof *p->right);
    for (size_t i = 0; i < p->n; i++) {
        for (size_t q = p->starts[i]; q < p->starts[i + 1]; q++) {
            p->values[q] = value();
            if (dominant && p->columns[q] == i + 1)
                p->values[q] = 2.0 * (double)(p->starts[i + 1] - p->starts[i]) + p->values[q];
        }
        p->right[i] = value();
    }
}

struct pattern pattern_make(enum kind kind, size_t size, size_t width, int dominant)
{
    struct pattern p = {.n = kind == GRID ? size * size : size};
    struct marks m = {p.n, room(p.n * p.n, 1)};
    chance_state = SEED;
    mark_all(m, kind, size, width);
    list_places(&p, m);
    give_values(&p, dominant);
    free(m.at);
    return p;
}

void pattern_free(struct pattern *p)
{
    free(p->starts);
    free(p->columns);
    free(p->values);
    free(p->right);
}
