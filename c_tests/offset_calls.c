/* Fixed calls that read and write offsets (document 02, ticket 11), through the header and through the exported functions: traps of rounding and of text,
   refusals and their order, stores of other lengths, answers of any length. */
#include "dalumiveth.h"
#include "expect.h"

#include <math.h>
#include <string.h>

static int is_plus_zero(double value)
{
    static const double zero = 0;
    return memcmp(&value, &zero, sizeof zero) == 0;
}

static int all_zero(const void *store, size_t length)
{
    const unsigned char *bytes = (const unsigned char *)store;
    for (; length > 0; length--)
        if (bytes[length - 1] != 0)
            return 0;
    return 1;
}

/* ------------------------------------------------------------------ through the header */

static void expect_written(double value, const char *text, int64_t whole)
{
    char out[DLM_OFFSET_BYTES + 1];
    dlm_offset offset;
    memset(out, 'x', sizeof out);
    offset = dlm_write_offset(value, out);
    expect(offset.refusal == DLM_NONE && offset.whole == whole, text);
    expect(offset.value == (double)whole && (whole != 0 || is_plus_zero(offset.value)), text);
    expect(memcmp(out, text, DLM_OFFSET_BYTES) == 0 && out[DLM_OFFSET_BYTES] == 'x', text);
    offset = dlm_read_offset(text, DLM_OFFSET_BYTES);
    expect(offset.refusal == DLM_NONE && offset.whole == whole, "what was written reads as that number");
    expect(offset.value == (double)whole && (whole != 0 || is_plus_zero(offset.value)), "and as the double equal to it");
}

static void expect_beyond(double value)
{
    char out[DLM_OFFSET_BYTES + 1];
    dlm_offset offset;
    memset(out, 'x', sizeof out);
    offset = dlm_write_offset(value, out);
    expect(offset.refusal == DLM_OFFSET_BEYOND && offset.whole == 0 && is_plus_zero(offset.value), "a value beyond the largest is 29");
    expect(all_zero(out, DLM_OFFSET_BYTES) && out[DLM_OFFSET_BYTES] == 'x', "and leaves zeros");
}

static void test_rounding(void)
{
    static const double zeros[] = {0.0, 0.4, 0.5, 0x1p-1, 0x1p-1022, 0x1p-1074, 0x0.fffffffffffffp-1022, 1e-300, 0x1.fffffffffffffp-2};
    size_t which;
    for (which = 0; which < sizeof zeros / sizeof zeros[0]; which++) {
        expect_written(zeros[which], "+000 00 00.000", 0);
        expect_written(-zeros[which], "+000 00 00.000", 0);
    }
    expect_written(0x1.0000000000001p-1, "+000 00 00.001", 1);
    expect_written(-0x1.0000000000001p-1, "-000 00 00.001", -1);
    expect_written(1.0, "+000 00 00.001", 1);
    expect_written(0x1.7ffffffffffffp0, "+000 00 00.001", 1);
    expect_written(1.5, "+000 00 00.002", 2);
    expect_written(-1.5, "-000 00 00.002", -2);
    expect_written(2.5, "+000 00 00.002", 2);
    expect_written(-2.5, "-000 00 00.002", -2);
    expect_written(0x1.4000000000001p1, "+000 00 00.003", 3);
    expect_written(3.5, "+000 00 00.004", 4);
    expect_written(45296789.0, "+012 34 56.789", 45296789);
    expect_written(-45296788.75, "-012 34 56.789", -45296789);
    expect_written(999.5, "+000 00 01.000", 1000);
    expect_written(59999.5, "+000 01 00.000", 60000);
    expect_written(3599999.5, "+001 00 00.000", 3600000);
    expect_written(359999999.5, "+100 00 00.000", 360000000);
}

static void test_largest(void)
{
    static const double tie = 1295999999.5; /* to the even 1,296,000,000, which is too large */
    static const double others[] = {1296000000.0, 1296000000.5, 4294967296.0, 0x1p51, 0x1p52, 0x1.0000000000001p52, 0x1p53, 0x1p63, 0x1p64, 1e300,
                                    0x1.fffffffffffffp1023};
    size_t which;
    expect_written(1295999998.5, "+359 59 59.998", 1295999998);
    expect_written(1295999999.0, "+359 59 59.999", DLM_MOST_OFFSET);
    expect_written(-1295999999.0, "-359 59 59.999", -DLM_MOST_OFFSET);
    expect_written(nextafter(tie, 0), "+359 59 59.999", DLM_MOST_OFFSET);
    expect_written(-nextafter(tie, 0), "-359 59 59.999", -DLM_MOST_OFFSET);
    expect_beyond(tie);
    expect_beyond(-tie);
    expect_beyond(nextafter(tie, INFINITY));
    expect_beyond(-nextafter(tie, INFINITY));
    for (which = 0; which < sizeof others / sizeof others[0]; which++) {
        expect_beyond(others[which]);
        expect_beyond(-others[which]);
    }
    expect_beyond((double)INFINITY);
    expect_beyond(-(double)INFINITY);
    expect_beyond((double)NAN);
    expect_beyond(-(double)NAN);
}

static void expect_other_text(const char *text, size_t length)
{
    dlm_offset offset = dlm_read_offset(text, length);
    expect(offset.refusal == DLM_OFFSET_TEXT && offset.whole == 0 && is_plus_zero(offset.value), text);
}

static void test_texts(void)
{
    static const char *const others[] = {
        "-000 00 00.000", "+360 00 00.000", "-360 00 00.000", "+999 59 59.999", "+012 60 56.789", "+012 99 56.789", "+012 34 60.000", "+012 34 99.789",
        "+012 34 56,789", "+012 34 56:789", "+012\t34 56.789", "+012 34\t56.789", "+012:34:56.789", "+012-34-56.789", "+012d34m56.789", " 012 34 56.789",
        "0012 34 56.789", "*012 34 56.789", ",012 34 56.789", "++12 34 56.789", "+-12 34 56.789", "+ 12 34 56.789", "+01a 34 56.789", "+012 3b 56.789",
        "+012 34 5c.789", "+012 34 56.78d", "+/12 34 56.789", "+:12 34 56.789", "+012 34 56.7 9", "+012 34 56.78\n", "+012 34 56.78\0", "+12 34 56.7890",
        "+1e2 34 56.789", "+012 -4 56.789", "abcdefghijklmn"};
    size_t which;
    for (which = 0; which < sizeof others / sizeof others[0]; which++)
        expect_other_text(others[which], DLM_OFFSET_BYTES);
    expect_other_text("+012 34 56.789", 13);
    expect_other_text("+012 34 56.7890", 15);
    expect_other_text("+012 34 56.789\n", 15);
    expect_other_text("+012 34 56.789", 15); /* the terminating zero */
    expect_other_text("+012 34 56.789", 0);
    expect(dlm_read_offset(NULL, DLM_OFFSET_BYTES).refusal == DLM_OFFSET_TEXT, "no text is 28");
    expect(dlm_write_offset(1, NULL).refusal == DLM_STORES, "no store for the text is 6");
    expect(dlm_read_offset("+359 59 59.999", 14).whole == DLM_MOST_OFFSET, "the largest is read");
    expect(dlm_read_offset("-359 59 59.999", 14).whole == -DLM_MOST_OFFSET, "and the least");
}

/* Every byte at every place of a text. */
static void test_every_byte(void)
{
    static const char given[] = "+359 59 59.999"; /* each digit is the largest that its place takes beside the others */
    char text[DLM_OFFSET_BYTES];
    size_t place;
    int byte;
    for (place = 0; place < DLM_OFFSET_BYTES; place++)
        for (byte = 0; byte < 256; byte++) {
            int digit = given[place] >= '0' && given[place] <= '9';
            int taken = digit ? byte >= '0' && byte <= given[place] : byte == given[place] || (place == 0 && byte == '-');
            memcpy(text, given, DLM_OFFSET_BYTES);
            text[place] = (char)(unsigned char)byte;
            expect(dlm_read_offset(text, DLM_OFFSET_BYTES).refusal == (taken ? DLM_NONE : DLM_OFFSET_TEXT), "every byte at every place");
        }
}

/* ------------------------------------------------------------------ the exported functions themselves */

static const uint8_t *bytes_of(const char *text)
{
    return (const uint8_t *)text;
}

/* `answer` of any length gets as many numbers as it has room for, and zeros behind the four. */
static void expect_answer(const size_t *answer, size_t length, const size_t expected[4])
{
    size_t place;
    for (place = 0; place < length; place++)
        expect(answer[place] == (place < 4 ? expected[place] : 0), "the answer's numbers");
    expect(answer[length] == SIZE_MAX, "and nothing behind their store");
}

static void test_answers(void)
{
    static const size_t lengths[] = {0, 1, 2, 3, 4, 6};
    static const size_t good[4] = {0, 0, 1, 45296789}, other_text[4] = {28, 0, 0, 0}, beyond[4] = {29, 0, 0, 0};
    size_t which;
    for (which = 0; which < sizeof lengths / sizeof lengths[0]; which++) {
        size_t length = lengths[which], answer[7];
        uint8_t out[14];
        double value = NAN;
        memset(answer, 255, sizeof answer);
        expect(dalumiveth_read_offset(bytes_of("-012 34 56.789"), 14, &value, 1, answer, length) == 0 && value == -45296789.0, "read");
        expect_answer(answer, length, good);
        memset(answer, 255, sizeof answer);
        expect(dalumiveth_read_offset(bytes_of("-000 00 00.000"), 14, &value, 1, answer, length) == 28 && is_plus_zero(value), "28");
        expect_answer(answer, length, other_text);
        memset(answer, 255, sizeof answer);
        memset(out, 'x', sizeof out);
        expect(dalumiveth_write_offset(-45296789.25, out, 14, answer, length) == 0 && memcmp(out, "-012 34 56.789", 14) == 0, "written");
        expect_answer(answer, length, good);
        memset(answer, 255, sizeof answer);
        expect(dalumiveth_write_offset(-INFINITY, out, 14, answer, length) == 29 && all_zero(out, sizeof out), "29");
        expect_answer(answer, length, beyond);
    }
}

/* A result store of another length is 6, before 28: with a good text and with another. */
static void test_value_stores(void)
{
    static const size_t lengths[] = {0, 2, 3, 14};
    static const size_t stores[4] = {6, 0, 0, 0};
    static const char *const texts[] = {"+012 34 56.789", "-000 00 00.000", "x"};
    size_t which, text;
    for (which = 0; which < sizeof lengths / sizeof lengths[0]; which++)
        for (text = 0; text < 3; text++) {
            size_t length = lengths[which], answer[5];
            double value[15], behind;
            memset(value, 255, sizeof value);
            memset(&behind, 255, sizeof behind);
            memset(answer, 255, sizeof answer);
            expect(dalumiveth_read_offset(bytes_of(texts[text]), strlen(texts[text]), value, length, answer, 4) == 6, "6 before 28");
            expect_answer(answer, 4, stores);
            expect(all_zero(value, length * sizeof *value), "its store is zeros");
            expect(memcmp(value + length, &behind, sizeof behind) == 0, "and nothing behind it is written");
        }
}

/* The same of the text's store, before 29. */
static void test_text_stores(void)
{
    static const size_t lengths[] = {0, 1, 13, 15, 28};
    static const size_t stores[4] = {6, 0, 0, 0};
    static const double values[] = {1, 1296000000.0, INFINITY, NAN};
    size_t which, value;
    for (which = 0; which < sizeof lengths / sizeof lengths[0]; which++)
        for (value = 0; value < 4; value++) {
            size_t length = lengths[which], answer[5];
            uint8_t out[29];
            memset(out, 'x', sizeof out);
            memset(answer, 255, sizeof answer);
            expect(dalumiveth_write_offset(values[value], out, length, answer, 4) == 6, "6 before 29");
            expect_answer(answer, 4, stores);
            expect(all_zero(out, length) && out[length] == 'x', "its store is zeros, and nothing behind it is written");
        }
}

int main(void)
{
    test_rounding();
    test_largest();
    test_texts();
    test_every_byte();
    test_answers();
    test_value_stores();
    test_text_stores();
    return print_tried();
}
