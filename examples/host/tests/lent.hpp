// A good job, and slices that are lent to one call and hold what must still stand where they are as found.
#ifndef HOST_LENT_HPP
#define HOST_LENT_HPP

#include <stdexcept>

#include "calls.hpp"
#include "guarded.hpp"
#include "maizespell.h"

namespace host {

inline void must(bool holds, const char *what) {
    if (!holds) {
        throw std::runtime_error(what);
    }
}

template <class Result> void must_be_refused(const Result &result, std::uint64_t number, std::uint64_t place) {
    must(result.refusal == number && result.place == place, "another refusal");
}

// A good job, what it needs, and what it must come to.
struct Case {
    Bytes job;
    Needs needs;
    Routed routed;
};

constexpr std::uint16_t found_map = 0xC35A;
constexpr std::uint64_t found_work = 0xC35A69E1A5C3961E;
constexpr std::uint8_t found_plan = 0x6D;

// Slices for one call, each against a guard page, shorter than the need by so much.
struct Slices {
    Guarded<std::uint8_t> job;
    Guarded<std::uint16_t> map;
    Guarded<std::uint64_t> work;
    Guarded<std::uint8_t> plan;

    Slices(const Case &of, const Bytes &plan_held, End end, std::size_t map_short = 0, std::size_t work_short = 0)
        : job(of.job, end), map(Map(of.needs.map - map_short, found_map), end),
          work(Work(of.needs.work - work_short, found_work), end), plan(plan_held, end) {}

    maizespell_routing_result route() {
        const auto result = maizespell_routing(job.data(), job.size(), map.data(), map.size(), work.data(),
                                               work.size(), plan.data(), plan.size());
        must_keep_to_slices();
        return result;
    }

    maizespell_replay_result replay() {
        const auto result = maizespell_replay(job.data(), job.size(), plan.data(), plan.size(), map.data(),
                                              map.size(), work.data(), work.size());
        must_keep_to_slices();
        return result;
    }

    maizespell_replay_result report(Guarded<std::uint64_t> &counts) {
        const auto result = maizespell_report(job.data(), job.size(), plan.data(), plan.size(), map.data(), map.size(),
                                              work.data(), work.size(), counts.data(), counts.size());
        must_keep_to_slices();
        must(counts.guard_stands(), "a guard is gone");
        return result;
    }

    void must_keep_to_slices() const {
        must(job.guard_stands() && map.guard_stands() && work.guard_stands() && plan.guard_stands(), "a guard is gone");
    }

    void must_be_as_found() const {
        must(map.content() == Map(map.size(), found_map), "the map is not as found");
        must(work.content() == Work(work.size(), found_work), "work is not as found");
    }

    // What routing and replay leave when they succeed.
    void must_be_joined(const Case &of) const {
        must(map.content() == of.routed.joined.map, "another map");
        must(work.content() == Work(of.needs.work), "work is not zero");
    }

    void must_be_zero() const {
        must(map.content() == Map(map.size()), "the map is not zero");
        must(work.content() == Work(work.size()), "work is not zero");
    }
};

} // namespace host

#endif
