#include "plain_load.h"

/* Numbers of 32 bits in 64, so that what passes them is taken off in sight. */
static const uint64_t two_to_32 = UINT64_C(4294967296);

static uint64_t next_draw(uint64_t *state)
{
    uint64_t z = *state = (*state + UINT64_C(2654435769)) % two_to_32;
    z = z ^ z / 65536;             /* shifted right 16 */
    z = z ^ z * 128 % two_to_32;   /* shifted left 7, kept to 32 bits */
    return z ^ z / 2048;           /* shifted right 11 */
}

static int next_value(uint64_t *state)
{
    return (int)(next_draw(state) % 2001) - 1000;
}

plain_lengths plain_load_lengths(size_t n)
{
    plain_lengths lengths;
    lengths.starts = n + 1;
    lengths.columns = lengths.values = PLAIN_LOAD_ENTRIES;
    lengths.right = n;
    return lengths;
}

/* What is judged before any draw: 1 for n, 23, 6, or 0. */
static size_t judge(size_t n, size_t d, plain_lengths lengths)
{
    plain_lengths wanted = plain_load_lengths(n);
    if (n == 0 || n > PLAIN_LOAD_ROWS)
        return 1;
    if (d == 0)
        return 23;
    if (lengths.starts != wanted.starts || lengths.columns != wanted.columns || lengths.values != wanted.values || lengths.right != wanted.right)
        return 6;
    return 0;
}

/* Whether the row's entries fit beside those before it. */
static int make_row(size_t i, size_t d, uint64_t *state, plain_load *load)
{
    size_t j;
    for (j = 1; j <= load->rows; j++) {
        if (j != i && next_draw(state) % d != 0)
            continue;
        if (load->entries == PLAIN_LOAD_ENTRIES)
            return 0;
        load->columns[load->entries] = j;
        load->values[load->entries] = next_value(state);
        load->entries++;
    }
    load->ends[i - 1] = load->entries;
    load->right[i - 1] = next_value(state);
    return 1;
}

void plain_make_load(uint32_t seed, size_t n, size_t d, plain_lengths lengths, plain_load *load)
{
    uint64_t state = seed;
    size_t i;
    load->number = judge(n, d, lengths);
    load->rows = load->number == 0 ? n : 0;
    load->entries = 0;
    for (i = 1; i <= load->rows; i++) {
        if (!make_row(i, d, &state, load)) {
            load->number = 1;
            load->rows = load->entries = 0; /* which ends the loop */
        }
    }
}
