/* Fixed calls on a tally, through the header and through the exported function: every member and numbers that would be one in fewer bits, the largest sum met and
   passed by one, 6 before 27 before 19, and after each call all sixteen counters.                                                   */
#include "dalumiveth.h"
#include "expect.h"

#include <string.h>

static const size_t no_members[] = {0, 17, 18, 32, 255, 256, 257, 272, 65535, 65537, 65552, UINT32_MAX, (size_t)UINT32_MAX + 2, (size_t)UINT32_MAX + 17,
                                    (size_t)1 << 63, SIZE_MAX - 15, SIZE_MAX};
enum { NO_MEMBERS = sizeof no_members / sizeof no_members[0] };

static int is(dlm_answer answer, size_t number)
{
    return (size_t)answer.refusal == number && answer.step == 0;
}

/* 100 for member 1 to 115 for member 16. */
static dlm_tally hundreds(void)
{
    dlm_tally tally;
    size_t place;
    for (place = 0; place < DLM_MEMBERS; place++)
        tally.counters[place] = 100 + (uint32_t)place;
    return tally;
}

static int same(const dlm_tally *a, const dlm_tally *b)
{
    return memcmp(a->counters, b->counters, sizeof a->counters) == 0;
}

static void test_members(void)
{
    dlm_tally expected = {{0}}, tally = {{0}};
    size_t member;
    for (member = 1; member <= DLM_MEMBERS; member++) {
        expected.counters[member - 1] = 3 * (uint32_t)member;
        expect(is(dlm_tally_add(&tally, member, 3 * member), 0) && same(&tally, &expected), "the member's counter alone has the updates");
    }
    for (member = 1; member <= DLM_MEMBERS; member++) {
        expected.counters[member - 1]++;
        expect(is(dlm_tally_add(&tally, member, 1), 0) && same(&tally, &expected), "and one more");
    }
    expect(is(dlm_tally_add(&tally, 16, 0), 0) && same(&tally, &expected), "no updates");
}

static void test_no_members(void)
{
    dlm_tally before = hundreds(), tally = before;
    size_t which;
    for (which = 0; which < NO_MEMBERS; which++) {
        expect(is(dlm_tally_add(&tally, no_members[which], 1), 27) && same(&tally, &before), "no such member is 27, and all sixteen stay");
        expect(is(dlm_tally_add(&tally, no_members[which], SIZE_MAX), 27) && same(&tally, &before), "27 before 19");
    }
    memset(tally.counters, 0xFF, sizeof tally.counters);
    before = tally;
    expect(is(dlm_tally_add(&tally, 0, 1), 27) && is(dlm_tally_add(&tally, 17, 1), 27) && same(&tally, &before), "27 before 19 where every counter is full");
}

static void test_full(void)
{
    dlm_tally before = hundreds(), tally;
    size_t member;
    before.counters[4] = UINT32_MAX;
    for (member = 1; member <= DLM_MEMBERS; member++) {
        uint32_t held = before.counters[member - 1];
        dlm_tally filled = before;
        filled.counters[member - 1] = UINT32_MAX;
        tally = before;
        expect(is(dlm_tally_add(&tally, member, (size_t)UINT32_MAX - held + 1), 19) && same(&tally, &before), "one past the largest sum is 19");
        expect(is(dlm_tally_add(&tally, member, (size_t)UINT32_MAX + 1), 19) && same(&tally, &before), "more than 32 bits of updates are 19");
        expect(is(dlm_tally_add(&tally, member, SIZE_MAX), 19) && same(&tally, &before), "the largest number of updates is 19");
        expect(is(dlm_tally_add(&tally, member, UINT32_MAX - held), 0) && same(&tally, &filled), "up to the largest sum");
        expect(is(dlm_tally_add(&tally, member, 0), 0) && same(&tally, &filled), "no updates on a full counter");
        expect(is(dlm_tally_add(&tally, member, 1), 19) && same(&tally, &filled), "one more is 19");
        expect(is(dlm_tally_add(&tally, member % DLM_MEMBERS + 1, 0), 0), "its neighbour is not full for that");
    }
    expect(is(dlm_tally_add(NULL, 1, 1), 6) && is(dlm_tally_add(NULL, 0, SIZE_MAX), 6), "no tally is 6");
}

/* A store of every length but sixteen is 6 and stays as it was, whatever member and updates are. */
static void test_lengths(void)
{
    static const size_t asked[4][2] = {{1, 2}, {0, 1}, {17, SIZE_MAX}, {16, (size_t)UINT32_MAX + 1}};
    size_t length;
    for (length = 0; length <= 40; length++) {
        uint32_t counters[42], before[42];
        size_t answer[5];
        size_t which;
        for (which = 0; which < 42; which++)
            counters[which] = UINT32_MAX - (uint32_t)which;
        memcpy(before, counters, sizeof before);
        for (which = 0; which < 4 && length != DLM_MEMBERS; which++) {
            memset(answer, 1, sizeof answer);
            expect(dalumiveth_tally_add(counters, length, asked[which][0], asked[which][1], answer, 4) == 6, "another length is 6");
            expect(answer[0] == 6 && answer[1] == 0 && answer[2] == 0 && answer[3] == 0, "and no sum is told");
            expect(memcmp(counters, before, sizeof before) == 0, "and the counters stay");
        }
    }
}

/* `answer` may have any length: what it has room for, and zeros behind. */
static void test_answers(void)
{
    static const size_t granted[6] = {0, 0, 105, 0, 0, 0}, outside[6] = {27, 0, 0, 0, 0, 0}, full[6] = {19, 0, 0, 0, 0, 0};
    size_t length;
    for (length = 0; length <= 6; length++) {
        dlm_tally tally = hundreds();
        size_t answer[7];
        memset(answer, 1, sizeof answer);
        expect(dalumiveth_tally_add(tally.counters, DLM_MEMBERS, 3, 3, answer, length) == 0 && memcmp(answer, granted, length * sizeof *answer) == 0,
               "the new sum, as far as there is room");
        expect(dalumiveth_tally_add(tally.counters, DLM_MEMBERS, 17, 3, answer, length) == 27 && memcmp(answer, outside, length * sizeof *answer) == 0, "27");
        expect(dalumiveth_tally_add(tally.counters, DLM_MEMBERS, 3, UINT32_MAX, answer, length) == 19 && memcmp(answer, full, length * sizeof *answer) == 0,
               "19");
        expect(answer[length] != 0, "and nothing behind it is written");
    }
}

int main(void)
{
    test_members();
    test_no_members();
    test_full();
    test_lengths();
    test_answers();
    return print_tried();
}
