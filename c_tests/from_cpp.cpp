// The header in C++, with stores of the caller's own: the four fields of document 01, a tall system, an offset written and read, a test load planned
// and run.
#include "dalumiveth.h"

#include <algorithm>
#include <cstdio>
#include <string>
#include <vector>

namespace {

// A vector of the right length, lent.
dlm_numbers lent(std::vector<size_t> &store, size_t length)
{
    store.assign(length, 7);
    return dlm_numbers{store.data(), store.size()};
}

dlm_reals lent(std::vector<double> &store, size_t length)
{
    store.assign(length, 7);
    return dlm_reals{store.data(), store.size()};
}

struct Stores {
    std::vector<size_t> numbers[13];
    std::vector<double> reals[6];
};

dlm_plan plan_stores(Stores &s, const dlm_sizes &sizes)
{
    return dlm_plan{dlm_counts(),
                    lent(s.numbers[0], sizes.l_subs),
                    lent(s.numbers[1], sizes.l_starts),
                    lent(s.numbers[2], sizes.l_slots),
                    lent(s.numbers[3], sizes.u_subs),
                    lent(s.numbers[4], sizes.u_starts),
                    lent(s.numbers[5], sizes.u_slots)};
}

dlm_work work_stores(Stores &s, const dlm_sizes &sizes)
{
    return dlm_work{lent(s.numbers[6], sizes.row_heads),  lent(s.numbers[7], sizes.row_links), lent(s.numbers[8], sizes.set_heads),
                    lent(s.numbers[9], sizes.set_links),  lent(s.numbers[10], sizes.list),     lent(s.numbers[11], sizes.spare),
                    lent(s.reals[0], sizes.copy),         lent(s.reals[1], sizes.dense)};
}

dlm_factor factor_stores(Stores &s, const dlm_sizes &sizes)
{
    return dlm_factor{lent(s.reals[2], sizes.l), lent(s.reals[3], sizes.u),         lent(s.reals[4], sizes.d),
                      lent(s.reals[5], sizes.x), lent(s.numbers[12], sizes.pivots), 0};
}

bool offset_returns(double value, const std::string &text)
{
    std::string out(DLM_OFFSET_BYTES, 'x');
    const dlm_offset written = dlm_write_offset(value, &out[0]);
    const dlm_offset read = dlm_read_offset(out.data(), out.size());
    return written.refusal == DLM_NONE && out == text && read.refusal == DLM_NONE && read.whole == written.whole && read.value == value;
}

// Whether the header's own stores get the same load, and zeros with 23.
bool load_is_made_again(uint32_t seed, size_t n, size_t d, const dlm_load &load)
{
    dlm_load again;
    bool good = dlm_load_allocate(&again, n) == 1 && dlm_make_load(seed, n, d, &again).refusal == DLM_NONE;
    good = good && again.n == n && again.entries == load.entries && std::equal(load.values.at, load.values.at + load.entries, again.values.at);
    good = good && dlm_make_load(seed, n, 0, &again).refusal == DLM_NO_DIVISOR && again.n == 0 && again.entries == 0 && again.values.at[0] == 0;
    dlm_load_free(&again);
    return good;
}

// A load in vectors, planned and run.
bool load_is_run(uint32_t seed, size_t n, size_t d)
{
    std::vector<size_t> starts, columns;
    std::vector<double> values, right;
    dlm_load load{0, lent(starts, n + 1), lent(columns, DLM_MOST_ENTRIES), lent(values, DLM_MOST_ENTRIES), lent(right, n), 0};
    bool good = dlm_make_load(seed, n, d, &load).refusal == DLM_NONE && load.n == n && columns[load.entries - 1] == n;
    good = good && load_is_made_again(seed, n, d, load);
    const dlm_pattern pattern = dlm_pattern_of_load(&load);
    const dlm_system system = dlm_system_of_load(&load);
    const dlm_sizes sizes = dlm_sizes_for(n, load.entries, nullptr);
    Stores stores;
    dlm_plan plan = plan_stores(stores, sizes);
    dlm_work work = work_stores(stores, sizes);
    dlm_factor factor = factor_stores(stores, sizes);
    good = good && dlm_make_plan(&pattern, &plan, &work).refusal == DLM_NONE;
    return good && dlm_run_largest(&pattern, &plan, &system, dlm_whole(), &factor, &work).refusal == DLM_NONE;
}

// One field seen by three observers, the last of whom saw nothing: cut to its one step, and 26 where it is to be solved.
bool tall_system_is_cut()
{
    const size_t starts[] = {0, 1, 2, 2};
    const size_t columns[] = {1, 1};
    const double values[] = {1, 4};
    const double right_side[] = {2, 12, 5};
    const dlm_pattern pattern = dlm_tall_pattern_of(1, 3, starts, columns, 2);
    const dlm_system system = dlm_system_of(values, 2, right_side, 3);
    const dlm_sizes sizes = dlm_tall_sizes_for(1, 3, 2, nullptr);
    Stores stores;
    dlm_plan plan = plan_stores(stores, sizes);
    dlm_work work = work_stores(stores, sizes);
    dlm_factor factor = factor_stores(stores, sizes);
    bool good = dlm_make_plan(&pattern, &plan, &work).refusal == DLM_NONE && plan.counts.height == 3;
    good = good && dlm_run_largest(&pattern, &plan, &system, dlm_cut(1), &factor, &work).refusal == DLM_NONE && factor.pivots.at[0] == 2;
    good = good && factor.x.at[0] / factor.d.at[0] == 3 && factor.x.at[1] == -1 && factor.x.at[2] == 5;
    good = good && dlm_run_largest(&pattern, &plan, &system, dlm_whole(), &factor, &work).refusal == DLM_TALL && factor.x.at[2] == 0;
    const dlm_pattern flat = dlm_tall_pattern_of(2, 1, starts, columns, 1);
    return good && dlm_make_plan(&flat, &plan, &work).refusal == DLM_HEIGHT && plan.counts.height == 0;
}

} // namespace

int main()
{
    const size_t starts[] = {0, 2, 4, 6, 9};
    const size_t columns[] = {1, 3, 2, 4, 1, 3, 2, 3, 4};
    const double values[] = {2, 1, 1, 1, 4, 4, 2, 1, 4};
    const double right_side[] = {3, 2, 8, 7};
    const dlm_pattern pattern = dlm_pattern_of(4, starts, columns, 9);
    const dlm_system system = dlm_system_of(values, 9, right_side, 4);
    Stores stores;
    dlm_sizes sizes = dlm_sizes_for(4, 9, nullptr);
    dlm_plan plan = plan_stores(stores, sizes);
    dlm_work work = work_stores(stores, sizes);
    dlm_answer answer = dlm_make_plan(&pattern, &plan, &work);
    sizes = dlm_sizes_for(4, 9, &plan.counts);
    dlm_factor factor = factor_stores(stores, sizes);
    bool good = answer.refusal == DLM_NONE && dlm_verify_plan(&pattern, &plan, &work).refusal == DLM_NONE;
    good = good && dlm_run_largest(&pattern, &plan, &system, dlm_whole(), &factor, &work).refusal == DLM_NONE;
    for (size_t i = 0; i < 4; i++)
        good = good && factor.x.at[i] == 1;
    dlm_tally tally = {{0}};
    good = good && dlm_tally_add(&tally, 16, factor.updates).refusal == DLM_NONE && tally.counters[15] == 3 && tally.counters[0] == 0;
    good = good && dlm_tally_add(&tally, 17, 1).refusal == DLM_NO_MEMBER && dlm_tally_add(&tally, 16, UINT32_MAX).refusal == DLM_TALLY_FULL;
    good = good && tall_system_is_cut();
    good = good && offset_returns(-45296789, "-012 34 56.789") && dlm_read_offset("+360 00 00.000", DLM_OFFSET_BYTES).refusal == DLM_OFFSET_TEXT;
    good = good && load_is_run(UINT32_MAX, 30, 5);
    std::printf("the four fields, a tall system, an offset and a test load from C++: %s\n", good ? "right" : "wrong");
    return good ? 0 : 1;
}
