// Tests the calls on slices against guard pages, of just the need and one short of it, and on null pointers
// of length 0. The arguments are files of good jobs. Exits with 0 where all is as the header says, and prints
// how many of the plans are within the host's guess; a touch of a guard page ends the process.
#include <exception>
#include <iostream>
#include <string>
#include <utility>

#include "files.hpp"
#include "lent.hpp"
#include "reports.hpp"

namespace {

using host::Bytes;
using host::Case;
using host::End;
using host::Guarded;
using host::must;
using host::must_be_refused;
using host::Slices;

Bytes plan_as_found(std::size_t length) { return Bytes(length, host::found_plan); }

void exact_slices(const Case &of, End end) {
    Guarded<std::uint8_t> job(of.job, end);
    const auto sized = maizespell_sizing(job.data(), job.size());
    must(sized.refusal == 0 && sized.vertices == of.needs.map && sized.work == of.needs.work, "another size");

    Slices routing(of, plan_as_found(of.routed.plan.size()), end);
    const auto routed = routing.route();
    must(routed.refusal == 0 && routed.bytes == of.routed.plan.size(), "not routed");
    routing.must_be_joined(of);
    must(routing.plan.content() == of.routed.plan, "another plan");

    Slices replaying(of, of.routed.plan, end);
    const auto replayed = replaying.replay();
    must(replayed.refusal == 0 && replayed.cost == of.routed.joined.totals.cost, "not replayed");
    replaying.must_be_joined(of);
}

void short_slices(const Case &of, End end) {
    Slices short_map(of, of.routed.plan, end, 1, 0);
    must_be_refused(short_map.route(), MAIZESPELL_MAP_SHORT, of.needs.map);
    must_be_refused(short_map.replay(), MAIZESPELL_MAP_SHORT, of.needs.map);
    short_map.must_be_as_found();

    Slices short_work(of, of.routed.plan, end, 0, 1);
    must_be_refused(short_work.route(), MAIZESPELL_WORK_SHORT, of.needs.work);
    must_be_refused(short_work.replay(), MAIZESPELL_WORK_SHORT, of.needs.work);
    short_work.must_be_as_found();

    if (of.routed.plan.empty()) {
        return;
    }
    Slices short_plan(of, plan_as_found(of.routed.plan.size() - 1), end);
    must_be_refused(short_plan.route(), MAIZESPELL_PLAN_SHORT, of.routed.plan.size());
    must(short_plan.plan.content() == Bytes(of.routed.plan.size() - 1), "the plan is not zero");
    short_plan.must_be_zero();
}

// Each slice in turn null with length 0, then all of them.
void null_slices(const Case &of, End end) {
    Slices lent(of, of.routed.plan, end);
    const auto [job, job_len] = std::pair(lent.job.data(), lent.job.size());
    const auto [map, map_len] = std::pair(lent.map.data(), lent.map.size());
    const auto [work, work_len] = std::pair(lent.work.data(), lent.work.size());
    const auto [plan, plan_len] = std::pair(lent.plan.data(), lent.plan.size());

    must_be_refused(maizespell_sizing(nullptr, 0), MAIZESPELL_GROUP_NOT_WHOLE, 0);
    must_be_refused(maizespell_routing(nullptr, 0, map, map_len, work, work_len, plan, plan_len),
                    MAIZESPELL_GROUP_NOT_WHOLE, 0);
    must_be_refused(maizespell_routing(job, job_len, nullptr, 0, work, work_len, plan, plan_len),
                    MAIZESPELL_MAP_SHORT, of.needs.map);
    must_be_refused(maizespell_routing(job, job_len, map, map_len, nullptr, 0, plan, plan_len),
                    MAIZESPELL_WORK_SHORT, of.needs.work);
    must_be_refused(maizespell_routing(nullptr, 0, nullptr, 0, nullptr, 0, nullptr, 0), MAIZESPELL_GROUP_NOT_WHOLE,
                    0);
    must_be_refused(maizespell_replay(nullptr, 0, plan, plan_len, map, map_len, work, work_len),
                    MAIZESPELL_GROUP_NOT_WHOLE, 0);
    must_be_refused(maizespell_replay(job, job_len, plan, plan_len, nullptr, 0, work, work_len),
                    MAIZESPELL_MAP_SHORT, of.needs.map);
    must_be_refused(maizespell_replay(job, job_len, plan, plan_len, map, map_len, nullptr, 0),
                    MAIZESPELL_WORK_SHORT, of.needs.work);
    must_be_refused(maizespell_replay(nullptr, 0, nullptr, 0, nullptr, 0, nullptr, 0), MAIZESPELL_GROUP_NOT_WHOLE,
                    0);
    lent.must_be_as_found();
    lent.must_keep_to_slices();
}

// A null plan is short for routing and not whole for replay, but where the job has no nets it is the plan.
void null_plan(const Case &of, End end) {
    Slices lent(of, {}, end);
    const auto routed = maizespell_routing(lent.job.data(), lent.job.size(), lent.map.data(), lent.map.size(),
                                           lent.work.data(), lent.work.size(), nullptr, 0);
    const auto replayed = maizespell_replay(lent.job.data(), lent.job.size(), nullptr, 0, lent.map.data(),
                                            lent.map.size(), lent.work.data(), lent.work.size());
    lent.must_keep_to_slices();
    if (of.routed.plan.empty()) {
        must_be_refused(routed, MAIZESPELL_NOT_REFUSED, 0);
        must_be_refused(replayed, MAIZESPELL_NOT_REFUSED, 0);
    } else {
        must_be_refused(routed, MAIZESPELL_PLAN_SHORT, of.routed.plan.size());
        must_be_refused(replayed, MAIZESPELL_PLAN_NOT_WHOLE_OR_TAIL_WRONG, 0);
        lent.must_be_zero();
    }
}

// Whether the job's plan is within the host's guess.
bool test_file(const std::string &path) {
    const Bytes job = host::read_file(path);
    const host::Needs needs = host::size(job);
    const Case of{job, needs, host::route(job, needs)};
    for (const End end : {End::front, End::back}) {
        exact_slices(of, end);
        short_slices(of, end);
        null_slices(of, end);
        null_plan(of, end);
        host::test_reports(of, end);
    }
    return of.routed.plan.size() <= host::plan_guess(job, needs);
}

} // namespace

int main(int count, char **paths) {
    int guessed = 0;
    for (int number = 1; number < count; ++number) {
        try {
            guessed += test_file(paths[number]) ? 1 : 0;
        } catch (const std::exception &error) {
            std::cerr << paths[number] << ": " << error.what() << '\n';
            return 1;
        }
    }
    std::cout << count - 1 << " jobs with guarded slices, " << guessed << " plans within the guess\n";
    return 0;
}
