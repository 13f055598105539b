/* Random numbers that a seed gives again, and stores of exactly their length, so that a place too many is seen by memory checkers. */
#ifndef STORES_H
#define STORES_H

#include "dalumiveth.h"

void seed_draws(uint64_t seed);
uint64_t draw_bits(void);
size_t draw(size_t below); /* 0 to below-1; below is not 0 */

double real_of_bits(uint64_t bits);
uint64_t bits_of_real(double real);

/* A new length; what fits of the contents stays, the rest is 1. A store without places has no memory: NULL. */
void resize_numbers(dlm_numbers *store, size_t length);
void resize_reals(dlm_reals *store, size_t length);

/* Any numbers, NaN and infinities among them: calls must not take notice. */
void dirty_numbers(dlm_numbers store);
void dirty_reals(dlm_reals store);

/* Whether the places from `from` on are 0, or +0. */
int numbers_are_zero(dlm_numbers store, size_t from);
int reals_are_zero(dlm_reals store, size_t from);

/* A number that changes with every bit of the store, length included; begin with 0 and pass on what was returned. */
uint64_t digest_numbers(uint64_t digest, dlm_numbers store);
uint64_t digest_reals(uint64_t digest, dlm_reals store);

#endif
