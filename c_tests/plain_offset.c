#include "plain_offset.h"

#include <math.h>
#include <stdio.h>
#include <string.h>

void plain_offset_text(int64_t whole, uint8_t text[PLAIN_OFFSET_BYTES])
{
    char printed[64];
    long long size = whole < 0 ? -whole : whole;
    snprintf(printed, sizeof printed, "%c%03lld %02lld %02lld.%03lld", whole < 0 ? '-' : '+', size / 3600000, size / 60000 % 60,
             size / 1000 % 60, size % 1000);
    memcpy(text, printed, PLAIN_OFFSET_BYTES);
}

/* What the digits make, whatever bytes stand there: comparing the texts is the test. */
static int64_t number_at(const uint8_t *text, size_t digits)
{
    int64_t number = 0;
    for (; digits > 0; digits--)
        number = 10 * number + (*text++ - '0');
    return number;
}

size_t plain_read_offset(const uint8_t *text, size_t length, int64_t *whole)
{
    uint8_t again[PLAIN_OFFSET_BYTES];
    *whole = 0;
    if (length != PLAIN_OFFSET_BYTES)
        return 28;
    *whole = ((number_at(text + 1, 3) * 60 + number_at(text + 5, 2)) * 60 + number_at(text + 8, 2)) * 1000 + number_at(text + 11, 3);
    if (text[0] == '-')
        *whole = -*whole;
    if (*whole >= -PLAIN_MOST_OFFSET && *whole <= PLAIN_MOST_OFFSET) {
        plain_offset_text(*whole, again);
        if (memcmp(text, again, sizeof again) == 0)
            return 0;
    }
    *whole = 0;
    return 28;
}

/* The mode of rounding is C's at a program's start: to the nearest, the even one at a half. */
size_t plain_round_offset(double value, int64_t *whole)
{
    double nearest = nearbyint(value);
    *whole = 0;
    if (!(fabs(nearest) <= (double)PLAIN_MOST_OFFSET)) /* NaN is not within either */
        return 29;
    *whole = (int64_t)nearest;
    return 0;
}
