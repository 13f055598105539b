/* Document 02, ticket 11, written down plainly: text by printf, rounding by C's own nearbyint. Nothing here is taken from the library. */
#ifndef PLAIN_OFFSET_H
#define PLAIN_OFFSET_H

#include "dalumiveth.h"

enum { PLAIN_OFFSET_BYTES = 14 };

/* "at most 1,295,999,999 in magnitude" */
#define PLAIN_MOST_OFFSET INT64_C(1295999999)

/* The 14 bytes of a whole number of at most that magnitude. */
void plain_offset_text(int64_t whole, uint8_t text[PLAIN_OFFSET_BYTES]);

/* 0 and the whole number, or 28: a text reads if it is the text of the number that its digits make. */
size_t plain_read_offset(const uint8_t *text, size_t length, int64_t *whole);

/* 0 and the nearest whole number, the even one at a half, or 29. */
size_t plain_round_offset(double value, int64_t *whole);

#endif
