/* Random test loads through the exported function, compared with the plain ones: the number, the answer, and every place of all four stores by
   its bits, whatever stood there before. Among them are loads around 16,384 entries, divisors past 32 bits, draws of 0, and refusals of every
   kind, often two at once.

     random_loads SEED LOADS                                                                                                      */
#include "plain_load.h"
#include "stores.h"

#include <stdio.h>

/* How often each kind of answer has to come about in 100 loads. */
enum { LEAST_SEEN = 1 };

static struct {
    size_t made, whole, rows, divisor, lengths, entries; /* made (of them with every place present), 1 for n, 23, 6, 1 for the entries */
    size_t wrong;
} total;

typedef struct request {
    uint32_t seed;
    size_t n, d;
    plain_lengths lengths;
} request;

static void check(int holds, const char *what, const request *asked)
{
    if (holds)
        return;
    total.wrong++;
    if (total.wrong <= 20)
        printf("wrong: %s; seed %lu, n %zu, d %zu, places %zu %zu %zu %zu\n", what, (unsigned long)asked->seed, asked->n, asked->d,
               asked->lengths.starts, asked->lengths.columns, asked->lengths.values, asked->lengths.right);
}

/* ------------------------------------------------------------------ what is tried */

/* Any; small; near the largest; or one of which some early draw is 0, which every d divides: the state before so many sums that lead to 0. */
static uint32_t draw_seed(void)
{
    switch (draw(4)) {
    case 0: return (uint32_t)draw(100);
    case 1: return UINT32_MAX - (uint32_t)draw(100);
    case 2: return 0 - (uint32_t)UINT32_C(2654435769) * (uint32_t)draw(200);
    default: return (uint32_t)draw_bits();
    }
}

/* Mostly small; an n that is refused, now and then one that would not be in 16 or 32 bits. */
static size_t draw_n(void)
{
    static const size_t refused[] = {0, 1025, 1026, 2048, SIZE_MAX - 1, SIZE_MAX};
    switch (draw(16)) {
    case 0: return refused[draw(6)];
    case 1: return ((size_t)1 << 16) + 1 + draw(40);
    case 2: return ((size_t)1 << 32) + 1 + draw(40);
    case 3: return 1 + draw(160);
    default: return 1 + draw(30);
    }
}

/* Of any size; what is drawn first does not hang on the compiler. */
static size_t draw_any(void)
{
    size_t bits = (size_t)draw_bits();
    return bits >> draw(64);
}

static size_t draw_d(void)
{
    switch (draw(12)) {
    case 0: return 0;
    case 1: return 1;
    case 2: return ((size_t)1 << 32) + draw(5); /* 0 to 4 in 32 bits */
    case 3: return SIZE_MAX - draw(3);
    case 4: return draw_any();
    case 5: return (size_t)1 << draw(64);
    default: return 1 + draw(60);
    }
}

/* About as many rows as make 16,384 entries with one place in d. */
static size_t rows_at_the_limit(size_t d)
{
    size_t n = 128;
    while (n < PLAIN_LOAD_ROWS && n + n * (n - 1) / d < PLAIN_LOAD_ENTRIES)
        n++;
    return n;
}

static void spoil(size_t *length)
{
    size_t way = draw(4);
    *length = way == 0 ? *length + 1 : way == 1 && *length > 0 ? *length - 1 : way == 2 ? draw(40) : 0;
}

/* As many places as n wants, or its lowest 16 bits; where these are too many, a few. */
static plain_lengths draw_lengths(size_t n)
{
    plain_lengths lengths = plain_load_lengths(n % 65536 <= 2 * PLAIN_LOAD_ROWS ? n % 65536 : draw(30));
    size_t spoilt = draw(7) != 0 ? 0 : draw(4) == 0 ? 2 : 1;
    for (; spoilt > 0; spoilt--) {
        switch (draw(4)) {
        case 0: spoil(&lengths.starts); break;
        case 1: spoil(&lengths.columns); break;
        case 2: spoil(&lengths.values); break;
        default: spoil(&lengths.right);
        }
    }
    return lengths;
}

static request draw_request(void)
{
    request asked;
    asked.seed = draw_seed();
    asked.n = draw_n();
    asked.d = draw_d();
    if (draw(20) == 0) {
        asked.d = 1 + draw(draw(4) == 0 ? 100 : 8); /* from 69 on the rows are the most there are */
        asked.n = rows_at_the_limit(asked.d) + draw(3) - 1;
    }
    asked.lengths = draw_lengths(asked.n);
    return asked;
}

/* ------------------------------------------------------------------ the trials */

static dlm_load dirty_stores(plain_lengths lengths)
{
    dlm_load lent = {0, {NULL, 0}, {NULL, 0}, {NULL, 0}, {NULL, 0}, 0};
    resize_numbers(&lent.starts, lengths.starts);
    resize_numbers(&lent.columns, lengths.columns);
    resize_reals(&lent.values, lengths.values);
    resize_reals(&lent.right, lengths.right);
    dirty_numbers(lent.starts);
    dirty_numbers(lent.columns);
    dirty_reals(lent.values);
    dirty_reals(lent.right);
    return lent;
}

static int are_starts(dlm_numbers starts, const plain_load *load)
{
    size_t i;
    for (i = 1; i <= load->rows; i++)
        if (starts.at[i] != load->ends[i - 1])
            return 0;
    return starts.length == 0 || (starts.at[0] == 0 && numbers_are_zero(starts, 1 + load->rows));
}

static int are_columns(dlm_numbers columns, const plain_load *load)
{
    size_t place;
    for (place = 0; place < load->entries; place++)
        if (columns.at[place] != load->columns[place])
            return 0;
    return numbers_are_zero(columns, load->entries);
}

/* Bit for bit: 0 is +0. */
static int are_reals(dlm_reals reals, const int *wholes, size_t count)
{
    size_t place;
    for (place = 0; place < count; place++)
        if (bits_of_real(reals.at[place]) != bits_of_real((double)wholes[place]))
            return 0;
    return reals_are_zero(reals, count);
}

static int is_answer(dlm_numbers answer, const plain_load *load)
{
    size_t place;
    for (place = 0; place < answer.length; place++)
        if (answer.at[place] != (place == 0 ? load->number : place == 2 ? load->entries : 0))
            return 0;
    return 1;
}

static void note(const request *asked, const plain_load *load)
{
    total.made += load->number == 0;
    total.whole += load->number == 0 && load->entries == asked->n * asked->n;
    total.divisor += load->number == 23;
    total.lengths += load->number == 6;
    total.rows += load->number == 1 && (asked->n == 0 || asked->n > PLAIN_LOAD_ROWS);
    total.entries += load->number == 1 && asked->n > 0 && asked->n <= PLAIN_LOAD_ROWS;
}

static void try_load(void)
{
    static plain_load load;
    request asked = draw_request();
    dlm_load lent = dirty_stores(asked.lengths);
    dlm_numbers answer = {NULL, 0};
    size_t number;
    resize_numbers(&answer, 1 + draw(5));
    dirty_numbers(answer);
    plain_make_load(asked.seed, asked.n, asked.d, asked.lengths, &load);
    number = dalumiveth_load(asked.seed, asked.n, asked.d, DLM_NUMBERS(lent.starts), DLM_NUMBERS(lent.columns), DLM_REALS(lent.values),
                             DLM_REALS(lent.right), answer.at, answer.length);
    check(number == load.number, "another number", &asked);
    check(is_answer(answer, &load), "another answer", &asked);
    check(are_starts(lent.starts, &load), "other row starts", &asked);
    check(are_columns(lent.columns, &load), "other columns", &asked);
    check(are_reals(lent.values, load.values, load.entries), "other values", &asked);
    check(are_reals(lent.right, load.right, load.rows), "another right side", &asked);
    note(&asked, &load);
    resize_numbers(&answer, 0);
    dlm_load_free(&lent);
}

/* Every answer has to come about often, or the trials show less than they say. */
static int all_seen(size_t loads)
{
    size_t least = loads / 100 * LEAST_SEEN;
    return total.made >= least && total.whole >= least && total.rows >= least && total.divisor >= least && total.lengths >= least &&
           total.entries >= least;
}

int main(int count, char **words)
{
    size_t loads;
    size_t done;
    if (count != 3) {
        fprintf(stderr, "use: random_loads SEED LOADS\n");
        return EXIT_FAILURE;
    }
    seed_draws(strtoull(words[1], NULL, 10));
    loads = (size_t)strtoull(words[2], NULL, 10);
    for (done = 0; done < loads; done++)
        try_load();
    printf("%zu loads: %zu made (%zu with every place), 1 for n %zu, 23 %zu, 6 %zu, 1 for the entries %zu; %zu wrong\n", loads, total.made,
           total.whole, total.rows, total.divisor, total.lengths, total.entries, total.wrong);
    if (loads >= 1000 && !all_seen(loads)) {
        printf("some answer came about too seldom\n");
        return EXIT_FAILURE;
    }
    return total.wrong == 0 ? EXIT_SUCCESS : EXIT_FAILURE;
}
