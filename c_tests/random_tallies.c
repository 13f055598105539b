/* Random sequences of calls on a tally, through the exported function, each from a record of zeros (stores of other lengths hold any numbers): the answer and all counters are compared after each call with plain sums of
   what was given, in 64 bits; at the end of a sequence each counter is the sum of its member's updates in calls that were not refused.

     random_tallies SEED SEQUENCES                                                                                                 */
#include "stores.h"

#include <stdio.h>
#include <string.h>

enum { MEMBERS = 16, MOST_CALLS = 40, MOST_PLACES = 20 };

static struct {
    size_t calls, granted, outside, full, other_length;
    size_t wrong;
} total;

/* A store of counters of exactly its length. */
typedef struct lent {
    uint32_t *at;
    size_t length;
} lent;

static lent new_store(size_t length)
{
    lent store;
    store.length = length;
    store.at = (uint32_t *)malloc((length > 0 ? length : 1) * sizeof *store.at);
    if (store.at == NULL)
        exit(EXIT_FAILURE);
    memset(store.at, 0, length * sizeof *store.at);
    return store;
}

/* Mostly 1 to 16; else beside it, a number that would be a member in 8, 16 or 32 bits, or any. */
static size_t draw_member(void)
{
    static const size_t beside[] = {0, 17, 18, 32};
    if (draw(5) != 0)
        return 1 + draw(MEMBERS);
    switch (draw(3)) {
    case 0: return beside[draw(4)];
    case 1: return draw(18) + ((size_t)1 << (8 << draw(3)));
    default: return (size_t)draw_bits() >> draw(64);
    }
}

/* Small, of any size, or near what the member has room for. */
static size_t draw_updates(uint64_t held)
{
    switch (draw(4)) {
    case 0: return draw(1000);
    case 1: return (size_t)draw_bits() >> (33 + draw(31));
    case 2: return (size_t)(UINT32_MAX - held) + draw(3) - (held < UINT32_MAX ? 1 : 0); /* one less, met, one more */
    default: return (size_t)draw_bits() >> draw(64);
    }
}

static void check(int holds, const char *what, size_t member, size_t updates)
{
    if (holds)
        return;
    total.wrong++;
    if (total.wrong <= 20)
        printf("wrong: %s; member %zu, updates %zu\n", what, member, updates);
}

/* What the call has to answer, by the sums so far. */
static size_t expected_number(const uint64_t *sums, size_t length, size_t member, size_t updates)
{
    if (length != MEMBERS)
        return 6;
    if (member < 1 || MEMBERS < member)
        return 27;
    if (updates > UINT32_MAX || sums[member - 1] + updates > UINT32_MAX)
        return 19;
    return 0;
}

static int are_sums(lent counters, const uint64_t *sums)
{
    size_t place;
    for (place = 0; place < counters.length; place++)
        if (counters.at[place] != sums[place])
            return 0;
    return 1;
}

static int is_answer(dlm_numbers answer, size_t number, uint64_t sum)
{
    size_t place;
    for (place = 0; place < answer.length; place++)
        if (answer.at[place] != (place == 0 ? number : place == 2 ? sum : 0))
            return 0;
    return 1;
}

static void note(size_t number)
{
    total.calls++;
    total.granted += number == 0;
    total.outside += number == 27;
    total.full += number == 19;
    total.other_length += number == 6;
}

/* One call on a store, with what it holds known as plain sums, which are brought up to it. */
static void try_call(lent counters, uint64_t *sums)
{
    size_t member = draw_member();
    size_t updates = draw_updates(1 <= member && member <= counters.length ? sums[member - 1] : 0);
    size_t number = expected_number(sums, counters.length, member, updates);
    dlm_numbers answer = {NULL, 0};
    resize_numbers(&answer, 1 + draw(5));
    dirty_numbers(answer);
    if (number == 0)
        sums[member - 1] += updates;
    check(dalumiveth_tally_add(counters.at, counters.length, member, updates, answer.at, answer.length) == number, "another number", member, updates);
    check(is_answer(answer, number, number == 0 ? sums[member - 1] : 0), "another answer", member, updates);
    check(are_sums(counters, sums), "other counters", member, updates);
    note(number);
    resize_numbers(&answer, 0);
}

static void try_sequence(void)
{
    uint64_t sums[MOST_PLACES] = {0};
    lent counters = new_store(draw(50) != 0 ? MEMBERS : draw(MOST_PLACES + 1));
    size_t calls = draw(MOST_CALLS + 1);
    size_t place;
    for (place = 0; place < counters.length && counters.length != MEMBERS; place++)
        sums[place] = counters.at[place] = (uint32_t)draw_bits();
    for (; calls > 0; calls--)
        try_call(counters, sums);
    free(counters.at);
}

int main(int count, char **words)
{
    size_t sequences;
    size_t done;
    if (count != 3) {
        fprintf(stderr, "use: random_tallies SEED SEQUENCES\n");
        return EXIT_FAILURE;
    }
    seed_draws(strtoull(words[1], NULL, 10));
    sequences = (size_t)strtoull(words[2], NULL, 10);
    for (done = 0; done < sequences; done++)
        try_sequence();
    printf("%zu sequences, %zu calls: %zu granted, %zu of another length (6), %zu without such a member (27), %zu full (19); %zu wrong\n", sequences,
           total.calls, total.granted, total.other_length, total.outside, total.full, total.wrong);
    if (sequences >= 1000 && (total.granted == 0 || total.other_length == 0 || total.outside == 0 || total.full == 0)) {
        printf("some answer did not come about\n");
        return EXIT_FAILURE;
    }
    return total.wrong == 0 ? EXIT_SUCCESS : EXIT_FAILURE;
}
