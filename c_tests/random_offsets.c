/* Random offsets, written and read through the exported functions and compared with the plain ones: floats of every exponent, halves and their
   neighbours, floats around the largest; texts that read, texts that miss by a byte, a length or a bound; stores of other lengths now and then.

     random_offsets SEED COUNT                                                                                                    */
#include "plain_offset.h"
#include "stores.h"

#include <math.h>
#include <stdio.h>
#include <string.h>

/* How often each of these has to come about in 100 trials of its kind. */
enum { LEAST_SEEN = 2 };

static struct {
    size_t written, halves, not_finite, beyond, out_stores; /* by value */
    size_t read, other_text, value_stores;                  /* by text */
    size_t wrong;
} total;

static void check(int holds, const char *what, double value, const uint8_t *text, size_t length)
{
    if (holds)
        return;
    total.wrong++;
    if (total.wrong <= 20)
        printf("wrong: %s; value %a, text of %zu bytes \"%.*s\"\n", what, value, length, (int)length, (const char *)text);
}

/* ------------------------------------------------------------------ what is tried */

static double with_sign(double value)
{
    return draw(2) == 0 ? value : -value;
}

/* At most two floats beside it. */
static double near(double value)
{
    return real_of_bits(bits_of_real(value) + draw(5) - 2);
}

static double draw_whole(void)
{
    size_t below = (size_t)1 << draw(31);
    return (double)draw(below < 1295999998 ? below : 1295999998) + 1;
}

/* A float; those of any bits have every exponent alike. */
static double draw_value(void)
{
    switch (draw(8)) {
    case 0: return real_of_bits(draw_bits());
    case 1: return with_sign(draw_whole() + 0.5);
    case 2: return with_sign(near(draw_whole() + 0.5));
    case 3: return with_sign(near(draw_whole()));
    case 4: return with_sign(near(1295999997.0 + (double)draw(8) / 2));
    case 5: return with_sign(real_of_bits((uint64_t)(1010 + draw(70)) << 52 | draw_bits() >> 12)); /* 2^-13 to 2^57 */
    case 6: return with_sign(draw(2) == 0 ? near(0.5) : real_of_bits(draw_bits() >> (12 + draw(52)))); /* subnormals */
    default: return with_sign(real_of_bits(UINT64_C(2047) << 52 | (draw(2) == 0 ? 0 : draw_bits() >> 12))); /* infinities and NaN */
    }
}

/* Two digits, or three, that are mostly in range. */
static size_t draw_part(size_t bound, size_t beyond)
{
    return draw(8) == 0 ? bound - 1 + draw(beyond - bound + 1) : draw(bound);
}

/* A text of the form, with bounds passed now and then, zero often. */
static void draw_form(uint8_t text[PLAIN_OFFSET_BYTES])
{
    char printed[64];
    int zero = draw(6) == 0;
    size_t degrees = zero ? 0 : draw_part(360, 1000), minutes = zero ? 0 : draw_part(60, 100);
    size_t seconds = zero ? 0 : draw_part(60, 100), rest = zero ? draw(2) : draw(1000);
    snprintf(printed, sizeof printed, "%c%03zu %02zu %02zu.%03zu", draw(2) == 0 ? '+' : '-', degrees, minutes, seconds, rest);
    memcpy(text, printed, PLAIN_OFFSET_BYTES);
}

/* A text, in memory of its own length; one byte of it is another now and then, and so is the length. */
static uint8_t *draw_text(size_t *length)
{
    static const char near_misses[] = "+- \t,.:/0123456789oOeE\n";
    uint8_t form[32];
    uint8_t *text;
    size_t place;
    for (place = 0; place < sizeof form; place++)
        form[place] = (uint8_t)(draw(2) == 0 ? '0' : draw(256));
    if (draw(20) != 0)
        draw_form(form);
    if (draw(3) == 0)
        form[draw(PLAIN_OFFSET_BYTES)] = (uint8_t)(draw(3) == 0 ? draw(256) : (size_t)near_misses[draw(sizeof near_misses - 1)]);
    *length = draw(8) != 0 ? PLAIN_OFFSET_BYTES : draw(2) == 0 ? 13 + 2 * draw(2) : draw(sizeof form);
    text = (uint8_t *)malloc(*length > 0 ? *length : 1);
    if (text == NULL)
        exit(EXIT_FAILURE);
    memcpy(text, form, *length);
    return text;
}

/* The length of a result store: mostly the right one. */
static size_t draw_length(size_t right)
{
    return draw(16) != 0 ? right : draw(4) != 0 ? right - 1 + 2 * draw(2) : draw(40);
}

/* ------------------------------------------------------------------ the trials */

/* The four numbers of an answer, cut or padded to its store. */
static int is_answer(dlm_numbers answer, size_t number, int64_t whole)
{
    size_t told[4];
    size_t place;
    told[0] = number;
    told[1] = 0;
    told[2] = whole < 0;
    told[3] = (size_t)(whole < 0 ? -whole : whole);
    for (place = 0; place < answer.length; place++)
        if (answer.at[place] != (place < 4 ? told[place] : 0))
            return 0;
    return 1;
}

static dlm_numbers dirty_answer(void)
{
    dlm_numbers answer = {NULL, 0};
    resize_numbers(&answer, 1 + draw(6));
    dirty_numbers(answer);
    return answer;
}

static int zero_bytes(const uint8_t *bytes, size_t length)
{
    while (length > 0)
        if (bytes[--length] != 0)
            return 0;
    return 1;
}

static void note_value(double value, size_t number)
{
    total.written += number == 0;
    total.halves += number == 0 && fabs(value - trunc(value)) == 0.5;
    total.not_finite += number == 29 && !isfinite(value);
    total.beyond += number == 29 && isfinite(value);
    total.out_stores += number == 6;
}

/* What was written has to read as that number: the plain reading is asked, and the library's. */
static void check_back(double value, const uint8_t *out, int64_t whole)
{
    size_t answer[4];
    double again = value;
    int64_t read = 0;
    check(plain_read_offset(out, PLAIN_OFFSET_BYTES, &read) == 0 && read == whole, "what was written is another number", value, out, PLAIN_OFFSET_BYTES);
    check(dalumiveth_read_offset(out, PLAIN_OFFSET_BYTES, &again, 1, answer, 4) == 0, "what was written does not read", value, out, PLAIN_OFFSET_BYTES);
    check(bits_of_real(again) == bits_of_real((double)whole), "what was written reads otherwise", value, out, PLAIN_OFFSET_BYTES);
    check(fabs(again - value) <= 0.5, "what was written is not within a half", value, out, PLAIN_OFFSET_BYTES); /* exact: the two are close */
}

static void try_value(double value)
{
    size_t length = draw_length(PLAIN_OFFSET_BYTES);
    uint8_t expected[PLAIN_OFFSET_BYTES];
    uint8_t *out = (uint8_t *)malloc(length > 0 ? length : 1);
    dlm_numbers answer = dirty_answer();
    int64_t whole = 0;
    size_t number = length == PLAIN_OFFSET_BYTES ? plain_round_offset(value, &whole) : 6;
    if (out == NULL)
        exit(EXIT_FAILURE);
    memset(out, (int)draw(256), length);
    check(dalumiveth_write_offset(value, out, length, answer.at, answer.length) == number, "another refusal of writing", value, out, length);
    check(is_answer(answer, number, whole), "another answer of writing", value, out, length);
    if (number == 0) {
        plain_offset_text(whole, expected);
        check(memcmp(out, expected, sizeof expected) == 0, "another text is written", value, out, length);
        check_back(value, out, whole);
    } else {
        check(zero_bytes(out, length), "no zeros after a refusal of writing", value, out, length);
    }
    note_value(value, number);
    resize_numbers(&answer, 0);
    free(out);
}

/* What was read has to be written as that text. */
static void check_again(const uint8_t *text, double value)
{
    uint8_t out[PLAIN_OFFSET_BYTES];
    size_t answer[4];
    check(dalumiveth_write_offset(value, out, sizeof out, answer, 4) == 0 && memcmp(out, text, sizeof out) == 0, "what was read is written otherwise",
          value, text, PLAIN_OFFSET_BYTES);
}

static void try_text(void)
{
    size_t length;
    uint8_t *text = draw_text(&length);
    dlm_reals value = {NULL, 0};
    dlm_numbers answer = dirty_answer();
    int64_t whole = 0;
    size_t number;
    resize_reals(&value, draw_length(1));
    dirty_reals(value);
    number = value.length == 1 ? plain_read_offset(text, length, &whole) : 6;
    check(dalumiveth_read_offset(text, length, DLM_REALS(value), answer.at, answer.length) == number, "another refusal of reading", 0, text, length);
    check(is_answer(answer, number, whole), "another answer of reading", 0, text, length);
    if (number == 0) {
        check(bits_of_real(value.at[0]) == bits_of_real((double)whole), "another number is read", value.at[0], text, length);
        check_again(text, value.at[0]);
    } else {
        check(reals_are_zero(value, 0), "no zeros after a refusal of reading", 0, text, length);
    }
    total.read += number == 0;
    total.other_text += number == 28;
    total.value_stores += number == 6;
    resize_reals(&value, 0);
    resize_numbers(&answer, 0);
    free(text);
}

/* Every answer has to come about often, or the trials show less than they say. */
static int all_seen(size_t count)
{
    size_t least = count / 100 * LEAST_SEEN;
    return total.written >= least && total.halves >= least && total.beyond >= least && total.out_stores >= least && total.read >= least &&
           total.other_text >= least && total.value_stores >= least && total.not_finite >= least;
}

int main(int count, char **words)
{
    unsigned long long seed = count > 1 ? strtoull(words[1], NULL, 10) : 1;
    size_t offsets = count > 2 ? (size_t)strtoull(words[2], NULL, 10) : 100000;
    size_t turn;
    seed_draws(seed);
    for (turn = 0; turn < offsets; turn++) {
        try_value(draw_value());
        try_text();
    }
    printf("seed %llu: %zu floats: %zu written (%zu of them halves), 29 not finite %zu, beyond %zu, 6 %zu; %zu texts: %zu read, 28 %zu, 6 %zu\n", seed,
           offsets, total.written, total.halves, total.not_finite, total.beyond, total.out_stores, offsets, total.read, total.other_text,
           total.value_stores);
    if (offsets >= 10000 && !all_seen(offsets)) {
        printf("some answer came about too seldom\n");
        return EXIT_FAILURE;
    }
    printf("%zu wrong\n", total.wrong);
    return total.wrong == 0 ? EXIT_SUCCESS : EXIT_FAILURE;
}
