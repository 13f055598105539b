/* What plan, verify and runs cost, beside a full square in C and beside others' solvers. One thread.

     bench               a table in plain text
     bench --markdown    the same as Markdown
     bench --growth      how cost grows with n: lines "series n ours square", in microseconds
     bench --quick       small patterns and few repetitions, to see that everything works
     bench --load 7,256,30    one row of the table, for the test load of that SEED,N,D

   Our solutions, updates and pivot rows have to be those of the square in C, bit for bit; the others' have to be near. */
#include "ours.h"
#include "solver.h"

#include <math.h>
#include <stdio.h>
#include <stdlib.h>
#include <string.h>
#include <time.h>

struct job {
    const char *name, *series;
    enum kind kind;
    size_t size, width;
    int dominant, quick;
};

static const struct job table_jobs[] = {
    {"grid 8 × 8", 0, GRID, 8, 0, 0, 1},
    {"grid 16 × 16", 0, GRID, 16, 0, 0, 1},
    {"grid 24 × 24", 0, GRID, 24, 0, 0, 0},
    {"grid 32 × 32", 0, GRID, 32, 0, 0, 0},
    {"grid 32 × 32, dominant", 0, GRID, 32, 0, 1, 0},
    {"survey 128", 0, SURVEY, 128, 0, 0, 1},
    {"survey 512", 0, SURVEY, 512, 0, 0, 0},
    {"survey 1,024", 0, SURVEY, 1024, 0, 0, 0},
    {"survey 1,024, dominant", 0, SURVEY, 1024, 0, 1, 0},
    {"strip 128", 0, STRIP, 128, 0, 0, 1},
    {"strip 1,024", 0, STRIP, 1024, 0, 0, 0},
    {"band of 5, 1,024", 0, BAND, 1024, 5, 0, 0},
    {"random 256, 3 a row", 0, RANDOM, 256, 3, 0, 1},
    {"random 256, 4 a row", 0, RANDOM, 256, 4, 0, 0},
    {"random 1,024, 3 a row", 0, RANDOM, 1024, 3, 0, 0},
    {"random 1,024, 4 a row", 0, RANDOM, 1024, 4, 0, 0},
    {"arrow, last full, 128", 0, ARROW_LAST, 128, 0, 0, 1},
    {"arrow, last full, 1,024", 0, ARROW_LAST, 1024, 0, 0, 0},
    {"arrow, first full, 128", 0, ARROW_FIRST, 128, 0, 0, 1},
    {"arrow, first full, 1,024", 0, ARROW_FIRST, 1024, 0, 0, 0},
    {"arrow, first full, 1,024, dominant", 0, ARROW_FIRST, 1024, 0, 1, 0},
    {"dense 32", 0, DENSE, 32, 0, 0, 1},
    {"dense 64", 0, DENSE, 64, 0, 0, 0},
    {"dense 128", 0, DENSE, 128, 0, 0, 0},
    {"never shared, 128", 0, UNSHARED, 128, 0, 0, 1},
    {"never shared, 1,024", 0, UNSHARED, 1024, 0, 0, 0},
};

static const struct job growth_jobs[] = {
    {"", "strip", STRIP, 16, 0, 0, 1},         {"", "strip", STRIP, 32, 0, 0, 1},         {"", "strip", STRIP, 64, 0, 0, 1},
    {"", "strip", STRIP, 128, 0, 0, 0},        {"", "strip", STRIP, 256, 0, 0, 0},        {"", "strip", STRIP, 512, 0, 0, 0},
    {"", "strip", STRIP, 1024, 0, 0, 0},       {"", "grid", GRID, 4, 0, 0, 1},            {"", "grid", GRID, 6, 0, 0, 1},
    {"", "grid", GRID, 8, 0, 0, 1},            {"", "grid", GRID, 12, 0, 0, 0},           {"", "grid", GRID, 16, 0, 0, 0},
    {"", "grid", GRID, 24, 0, 0, 0},           {"", "grid", GRID, 32, 0, 0, 0},           {"", "dense", DENSE, 16, 0, 0, 1},
    {"", "dense", DENSE, 32, 0, 0, 1},         {"", "dense", DENSE, 64, 0, 0, 1},         {"", "dense", DENSE, 128, 0, 0, 0},
    {"", "filled", ARROW_FIRST, 128, 0, 1, 0}, {"", "filled", ARROW_FIRST, 256, 0, 1, 0}, {"", "filled", ARROW_FIRST, 512, 0, 1, 0},
    {"", "filled", ARROW_FIRST, 1024, 0, 1, 0}, /* dominant: the full row stays first, and step 1 fills the square */
};

static const struct solver *const solvers[] = {
    &square_solver,
#ifdef WITH_LAPACK
    &lapack_solver,
#endif
#ifdef WITH_KLU
    &klu_solver,
#endif
#ifdef WITH_SUPERLU
    &superlu_solver,
#endif
};

enum { SOLVERS = sizeof solvers / sizeof *solvers, SQUARE = 0, PLAN = 0, VERIFY, RUN, OTHERS, CALLS = OTHERS + SOLVERS };

/* ---- timing */

enum { PASSES = 5, FEWEST = 3, MOST = 40 };
#define PASS_MICROSECONDS 100000.0
#define SAMPLE_MICROSECONDS 50.0

/* The thread's own time, which stands still while the machine does other work. */
static double now(void)
{
    struct timespec t;
    clock_gettime(CLOCK_THREAD_CPUTIME_ID, &t);
    return (double)t.tv_sec * 1e6 + (double)t.tv_nsec * 1e-3;
}

struct samples {
    double at[PASSES * MOST];
    size_t count;
};

static int ascending(const void *a, const void *b)
{
    double x = *(const double *)a, y = *(const double *)b;
    return (x > y) - (x < y);
}

/* The 20th percentile: other work on the machine only ever adds time, and the very least may be a stroke of luck. */
static double typical(struct samples *s)
{
    qsort(s->at, s->count, sizeof(double), ascending);
    return s->at[s->count / 5];
}

/* ---- one pattern */

struct bed {
    struct pattern pattern;
    struct ours ours;
    double *x; /* what another solver found */
    struct samples samples[CALLS];
    double cost[CALLS]; /* microseconds */
};

static int call(struct bed *b, int which)
{
    switch (which) {
    case PLAN: return (int)ours_plan(&b->ours);
    case VERIFY: return (int)ours_verify(&b->ours);
    case RUN: return (int)ours_run(&b->ours);
    default: return solvers[which - OTHERS]->solve(&b->pattern, b->x);
    }
}

static double cost_of(struct bed *b, int which, int calls)
{
    double begun = now();
    for (int c = 0; c < calls; c++)
        call(b, which);
    return (now() - begun) / calls;
}

/* First a call that does not count, so that the stores are near. Then samples, for a tenth of a second or as many as the limits say; short calls
   are timed several at once, so that the clock's own cost does not count either. */
static void sample(struct bed *b, int which)
{
    struct samples *s = &b->samples[which];
    double begun = now(), first = cost_of(b, which, 1);
    int calls = first < SAMPLE_MICROSECONDS ? (int)(SAMPLE_MICROSECONDS / first) + 1 : 1;
    for (int r = 0; r < MOST && (r < FEWEST || now() - begun < PASS_MICROSECONDS); r++)
        s->at[s->count++] = cost_of(b, which, calls);
}

/* Pass by pass, so that a spell of other work does not fall on one of them alone. */
static void measure(struct bed *b, int passes, int calls)
{
    for (int pass = 0; pass < passes; pass++)
        for (int which = 0; which < calls; which++)
            sample(b, which);
    for (int which = 0; which < calls; which++)
        b->cost[which] = typical(&b->samples[which]);
}

/* ---- results */

static void fail(const char *name, const char *what)
{
    fprintf(stderr, "bench: %s: %s\n", name, what);
    exit(1);
}

static int same_bits(const struct bed *b)
{
    size_t n = b->pattern.n;
    return memcmp(b->x, b->ours.x.at, n * sizeof(double)) == 0 && square_updates() == b->ours.updates &&
           memcmp(square_pivots(), b->ours.pivots.at, n * sizeof(size_t)) == 0;
}

/* Other orders of the same sums: near means to a millionth of the largest number of the solution. */
static int near(const struct bed *b)
{
    double most = 0.0, off = 0.0;
    for (size_t i = 0; i < b->pattern.n; i++) {
        most = fmax(most, fabs(b->ours.x.at[i]));
        off = fmax(off, fabs(b->x[i] - b->ours.x.at[i]));
    }
    return off <= 1e-6 * most;
}

static void compare(struct bed *b, const char *name)
{
    if (call(b, PLAN) || call(b, VERIFY) || call(b, RUN))
        fail(name, "the library refused it or stopped");
    for (int s = 0; s < SOLVERS; s++) {
        if (call(b, OTHERS + s))
            fail(name, solvers[s]->name);
        if (s == SQUARE ? !same_bits(b) : !near(b))
            fail(name, "the solutions differ");
    }
}

static void lay(struct bed *b, struct pattern pattern)
{
    memset(b, 0, sizeof *b);
    b->pattern = pattern;
    ours_prepare(&b->ours, &b->pattern);
    b->x = room(b->pattern.n, sizeof(double));
    for (int s = 0; s < SOLVERS; s++)
        solvers[s]->prepare(&b->pattern);
}

static void clear(struct bed *b)
{
    for (int s = 0; s < SOLVERS; s++)
        solvers[s]->release();
    ours_release(&b->ours);
    pattern_free(&b->pattern);
    free(b->x);
}

/* ---- printing */

static double factor_and_solve(const struct bed *b) { return b->cost[RUN] - b->cost[VERIFY]; }

/* Microseconds in at least three digits. */
static const char *shown(double microseconds, char *text)
{
    sprintf(text, microseconds < 10 ? "%.2f" : microseconds < 100 ? "%.1f" : "%.0f", microseconds);
    return text;
}

static const char *shown_ratio(double ratio, char *text)
{
    sprintf(text, ratio < 0.1 ? "%.3f" : "%.2f", ratio);
    return text;
}

/* Text to a width in letters, for the letter × has two bytes. */
static void padded(const char *text, int width)
{
    int letters = 0;
    for (const char *c = text; *c; c++)
        letters += (*c & 0xC0) != 0x80;
    printf("%s%*s", text, width > letters ? width - letters : 0, "");
}

static void print_head(int markdown)
{
    if (markdown)
        printf("| pattern | n | entries | slots | updates | plan | verify | run | factor and solve |");
    else
        printf("%-36s%6s%8s%9s%11s%10s%10s%10s%10s", "pattern", "n", "entries", "slots", "updates", "plan", "verify", "run", "f and s");
    for (int s = 0; s < SOLVERS; s++)
        printf(markdown ? " %s | ratio |" : "%12s  ratio", solvers[s]->name);
    printf("\n");
    if (markdown) {
        printf("|---|");
        for (int c = 0; c < 8 + 2 * SOLVERS; c++)
            printf("---:|");
        printf("\n");
    }
}

static void print_row(const struct bed *b, const char *name, int markdown)
{
    const size_t *counts = b->ours.counts.at;
    char text[32];
    if (markdown)
        printf("| %s | %zu | %zu | %zu | %zu |", name, counts[N], counts[ENTRIES], counts[L_SLOTS] + counts[U_SLOTS], b->ours.updates);
    else {
        padded(name, 36);
        printf("%6zu%8zu%9zu%11zu", counts[N], counts[ENTRIES], counts[L_SLOTS] + counts[U_SLOTS], b->ours.updates);
    }
    for (int which = PLAN; which <= RUN; which++)
        printf(markdown ? " %s |" : "%10s", shown(b->cost[which], text));
    printf(markdown ? " **%s** |" : "%10s", shown(factor_and_solve(b), text));
    for (int s = 0; s < SOLVERS; s++) {
        double other = b->cost[OTHERS + s];
        printf(markdown ? " %s |" : "%12s", shown(other, text));
        printf(markdown ? " %s |" : "%7s", shown_ratio(factor_and_solve(b) / other, text));
    }
    printf("\n");
    fflush(stdout);
}

static void print_growth(const struct bed *b, const char *series)
{
    printf("%s %zu %.3f %.3f\n", series, b->pattern.n, factor_and_solve(b), b->cost[OTHERS + SQUARE]);
    fflush(stdout);
}

/* Growth asks for our calls and the square's alone. */
static void do_jobs(const struct job *jobs, size_t count, int markdown, int quick)
{
    static struct bed b;
    for (size_t j = 0; j < count; j++) {
        if (quick && !jobs[j].quick)
            continue;
        lay(&b, pattern_make(jobs[j].kind, jobs[j].size, jobs[j].width, jobs[j].dominant));
        compare(&b, *jobs[j].name ? jobs[j].name : jobs[j].series);
        measure(&b, quick ? 1 : PASSES, jobs[j].series ? OTHERS + SQUARE + 1 : CALLS);
        if (jobs[j].series)
            print_growth(&b, jobs[j].series);
        else
            print_row(&b, jobs[j].name, markdown);
        clear(&b);
    }
}

static void do_load(const char *name, int markdown, int quick)
{
    static struct bed b;
    lay(&b, pattern_of_load(name));
    compare(&b, name);
    measure(&b, quick ? 1 : PASSES, CALLS);
    print_head(markdown);
    print_row(&b, name, markdown);
    clear(&b);
}

int main(int count, char **words)
{
    int markdown = 0, growth = 0, quick = 0;
    const char *load = NULL;
    for (int i = 1; i < count; i++) {
        int known = 0;
        if (strcmp(words[i], "--load") == 0 && i + 1 < count) {
            load = words[++i];
            continue;
        }
        known |= strcmp(words[i], "--markdown") == 0 ? markdown = 1 : 0;
        known |= strcmp(words[i], "--growth") == 0 ? growth = 1 : 0;
        known |= strcmp(words[i], "--quick") == 0 ? quick = 1 : 0;
        if (!known) {
            fprintf(stderr, "usage: bench [--markdown | --growth] [--quick] [--load SEED,N,D]\n");
            return 2;
        }
    }
    if (growth) {
        do_jobs(growth_jobs, sizeof growth_jobs / sizeof *growth_jobs, 0, quick);
        return 0;
    }
    if (load) {
        do_load(load, markdown, quick);
        return 0;
    }
    print_head(markdown);
    do_jobs(table_jobs, sizeof table_jobs / sizeof *table_jobs, markdown, quick);
    return 0;
}
