#include "stores.h"

#include <stdio.h>
#include <string.h>

static uint64_t state;

void seed_draws(uint64_t seed)
{
    state = seed;
}

/* splitmix64 */
uint64_t draw_bits(void)
{
    uint64_t z = (state += UINT64_C(0x9E3779B97F4A7C15));
    z = (z ^ (z >> 30)) * UINT64_C(0xBF58476D1CE4E5B9);
    z = (z ^ (z >> 27)) * UINT64_C(0x94D049BB133111EB);
    return z ^ (z >> 31);
}

size_t draw(size_t below)
{
    return (size_t)(draw_bits() % below);
}

double real_of_bits(uint64_t bits)
{
    double real;
    memcpy(&real, &bits, sizeof real);
    return real;
}

uint64_t bits_of_real(double real)
{
    uint64_t bits;
    memcpy(&bits, &real, sizeof bits);
    return bits;
}

static void *take(size_t places, size_t size)
{
    void *memory = malloc(places * size);
    if (memory == NULL) {
        fprintf(stderr, "no memory\n");
        exit(EXIT_FAILURE);
    }
    return memory;
}

void resize_numbers(dlm_numbers *store, size_t length)
{
    size_t *kept = store->at;
    size_t place;
    store->at = length > 0 ? (size_t *)take(length, sizeof *store->at) : NULL;
    for (place = 0; place < length; place++)
        store->at[place] = place < store->length ? kept[place] : 1;
    store->length = length;
    free(kept);
}

void resize_reals(dlm_reals *store, size_t length)
{
    double *kept = store->at;
    size_t place;
    store->at = length > 0 ? (double *)take(length, sizeof *store->at) : NULL;
    for (place = 0; place < length; place++)
        store->at[place] = place < store->length ? kept[place] : 1;
    store->length = length;
    free(kept);
}

void dirty_numbers(dlm_numbers store)
{
    size_t place;
    for (place = 0; place < store.length; place++)
        store.at[place] = draw(3) == 0 ? (size_t)draw_bits() : draw(50);
}

void dirty_reals(dlm_reals store)
{
    size_t place;
    for (place = 0; place < store.length; place++)
        store.at[place] = draw(8) == 0 ? real_of_bits(UINT64_C(0x7FF8000000000000)) : real_of_bits(draw_bits());
}

int numbers_are_zero(dlm_numbers store, size_t from)
{
    size_t place;
    for (place = from; place < store.length; place++)
        if (store.at[place] != 0)
            return 0;
    return 1;
}

int reals_are_zero(dlm_reals store, size_t from)
{
    size_t place;
    for (place = from; place < store.length; place++)
        if (bits_of_real(store.at[place]) != 0)
            return 0;
    return 1;
}

/* A product with an odd number and a shift lose no bit of what was there before. */
static uint64_t digest_bits(uint64_t digest, uint64_t bits)
{
    digest = (digest ^ bits) * UINT64_C(0x9E3779B97F4A7C15);
    return digest ^ (digest >> 29);
}

uint64_t digest_numbers(uint64_t digest, dlm_numbers store)
{
    size_t place;
    digest = digest_bits(digest, store.length);
    for (place = 0; place < store.length; place++)
        digest = digest_bits(digest, store.at[place]);
    return digest;
}

uint64_t digest_reals(uint64_t digest, dlm_reals store)
{
    size_t place;
    digest = digest_bits(digest, store.length);
    for (place = 0; place < store.length; place++)
        digest = digest_bits(digest, bits_of_real(store.at[place]));
    return digest;
}
