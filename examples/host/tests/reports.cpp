#include "reports.hpp"

#include <algorithm>

#include "refusals.hpp"

namespace host {
namespace {

constexpr std::size_t need = MAIZESPELL_REPORT_NEED;
constexpr std::size_t kinds = MAIZESPELL_REPORT_KINDS;
constexpr std::uint64_t found_report = 0x5A3C;
constexpr std::uint64_t most = UINT64_MAX;

// A refusal by 19: nothing is added, nothing else is answered, and map and work are as after replay.
void must_refuse_by_19(const Case &of, Slices &lent, Guarded<std::uint64_t> &report, std::uint64_t place) {
    const Report before = report.content();
    const auto result = lent.report(report);
    must_be_refused(result, MAIZESPELL_REPORT_SHORT_OR_OVER, place);
    must(result.cost == 0 && result.added == 0 && result.penalties == 0 && result.joined == 0, "numbers beside 19");
    must(report.content() == before, "the report is not as found");
    lent.must_be_joined(of);
}

void must_add(const Case &of, End end, Guarded<std::uint64_t> &report) {
    Slices lent(of, of.routed.plan, end);
    const auto result = lent.report(report);
    must_be_refused(result, MAIZESPELL_NOT_REFUSED, 0);
    const Totals totals{result.cost, result.added, result.penalties, result.joined};
    must(totals == of.routed.joined.totals, "other totals");
    lent.must_be_joined(of);
}

// The plan's own counts.
Report counts_of(const Case &of, End end) {
    Guarded<std::uint64_t> report(Report(need), end);
    must_add(of, end, report);
    return report.content();
}

// The sum over all layers of a kind.
std::uint64_t sum_of(const Report &counts, std::size_t kind) {
    std::uint64_t sum = 0;
    for (std::size_t at = kind; at < need; at += kinds) {
        sum += counts[at];
    }
    return sum;
}

// The same plan twice over what was there, in a report that is longer than its need.
void reports_add_up(const Case &of, End end, const Report &counts) {
    Guarded<std::uint64_t> report(Report(need + 2, found_report), end);
    must_add(of, end, report);
    must_add(of, end, report);
    Report expected(need + 2, found_report);
    for (std::size_t at = 0; at < need; ++at) {
        expected[at] += 2 * counts[at];
    }
    must(report.content() == expected, "another report");
    must(sum_of(counts, MAIZESPELL_REPORT_ADDED) == of.routed.joined.totals.added, "other added steps");
    must(sum_of(counts, MAIZESPELL_REPORT_PENALISED) == of.routed.joined.totals.penalties, "other penalties");
}

// A report that a plan fills exactly.
Report room_for(const Report &counts) {
    Report room(need);
    std::transform(counts.begin(), counts.end(), room.begin(), [](std::uint64_t count) { return most - count; });
    return room;
}

void must_be_over(const Case &of, End end, const Report &held, std::uint64_t layer) {
    Guarded<std::uint64_t> report(held, end);
    Slices lent(of, of.routed.plan, end);
    must_refuse_by_19(of, lent, report, layer);
}

// Room for just the plan; then one less for a single count, and none for it and for all that follow.
void full_reports(const Case &of, End end, const Report &counts) {
    Guarded<std::uint64_t> report(room_for(counts), end);
    must_add(of, end, report);
    must(report.content() == Report(need, most), "the report is not full");
    for (std::size_t at = 0; at < need; ++at) {
        if (counts[at] > 0) {
            Report one_less = room_for(counts);
            one_less[at] += 1;
            must_be_over(of, end, one_less, at / kinds);
            Report full_from_here(need);
            std::fill(full_from_here.begin() + static_cast<std::ptrdiff_t>(at), full_from_here.end(), most);
            must_be_over(of, end, full_from_here, at / kinds);
        }
    }
}

void short_reports(const Case &of, End end) {
    Guarded<std::uint64_t> report(Report(need - 1, most), end);
    Slices lent(of, of.routed.plan, end);
    must_refuse_by_19(of, lent, report, MAIZESPELL_REPORT_LAYERS);

    Slices without(of, of.routed.plan, end);
    const auto result =
        maizespell_report(without.job.data(), without.job.size(), without.plan.data(), without.plan.size(),
                          without.map.data(), without.map.size(), without.work.data(), without.work.size(), nullptr, 0);
    must_be_refused(result, MAIZESPELL_REPORT_SHORT_OR_OVER, MAIZESPELL_REPORT_LAYERS);
    without.must_keep_to_slices();
    without.must_be_joined(of);
}

// Replay's refusals come first, whatever the report is.
void refused_plans(const Case &of, End end) {
    Guarded<std::uint64_t> report(Report(need - 1, found_report), end);
    Slices short_map(of, of.routed.plan, end, 1, 0);
    must_be_refused(short_map.report(report), MAIZESPELL_MAP_SHORT, of.needs.map);
    short_map.must_be_as_found();
    Slices short_work(of, of.routed.plan, end, 0, 1);
    must_be_refused(short_work.report(report), MAIZESPELL_WORK_SHORT, of.needs.work);
    short_work.must_be_as_found();
    must_be_refused(maizespell_report(nullptr, 0, nullptr, 0, nullptr, 0, nullptr, 0, nullptr, 0),
                    MAIZESPELL_GROUP_NOT_WHOLE, 0);

    Bytes longer = of.routed.plan;
    longer.push_back(0);
    Slices broken(of, longer, end);
    must(broken.report(report).refusal == MAIZESPELL_PLAN_NOT_WHOLE_OR_TAIL_WRONG, "another refusal");
    broken.must_be_zero();
    must(report.content() == Report(need - 1, found_report), "the report is not as found");
}

void words_tell_both_of_19_apart() {
    must(words_of_refusal(19, 8) == "refused 19, report of fewer than 48 numbers: place 8", "other words");
    must(words_of_refusal(19, 3) == "refused 19, a count of the report would pass 2^64 - 1: layer 3", "other words");
}

} // namespace

void test_reports(const Case &of, End end) {
    const Report counts = counts_of(of, end);
    reports_add_up(of, end, counts);
    full_reports(of, end, counts);
    short_reports(of, end);
    refused_plans(of, end);
    words_tell_both_of_19_apart();
}

} // namespace host
