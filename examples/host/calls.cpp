#include "calls.hpp"

#include "maizespell.h"
#include "refusals.hpp"

namespace host {
namespace {

// The totals of a result of routing or replay.
template <class Result> Totals totals_of(const Result &result) {
    return {result.cost, result.added, result.penalties, result.joined};
}

template <class Result> void throw_if_refused(const Result &result) {
    if (result.refusal != MAIZESPELL_NOT_REFUSED) {
        throw Refused(result.refusal, result.place);
    }
}

maizespell_routing_result lend_to_routing(const Bytes &job, Map &map, Work &work, Bytes &plan) {
    return maizespell_routing(job.data(), job.size(), map.data(), map.size(), work.data(), work.size(), plan.data(),
                              plan.size());
}

Totals operator+(const Totals &left, const Totals &right) {
    return {left.cost + right.cost, left.added + right.added, left.penalties + right.penalties,
            left.joined + right.joined};
}

} // namespace

bool operator==(const Totals &left, const Totals &right) {
    return left.cost == right.cost && left.added == right.added && left.penalties == right.penalties &&
           left.joined == right.joined;
}

Needs size(const Bytes &job) {
    const maizespell_sizing_result result = maizespell_sizing(job.data(), job.size());
    throw_if_refused(result);
    return {result.vertices, result.work};
}

// A join takes 80 bits of the plan and 2 for each move; a pin takes 19 bits of the job and is joined once at
// most. So five times the job's bytes have room for every join without its moves, and a byte for each vertex
// has room for four moves to it. More is needed only where many long joins run over the same vertices.
std::size_t plan_guess(const Bytes &job, const Needs &needs) { return 5 * job.size() + needs.map; }

Routed route(const Bytes &job, const Needs &needs) {
    Map map(needs.map);
    Work work(needs.work);
    Bytes plan(plan_guess(job, needs));
    maizespell_routing_result result = lend_to_routing(job, map, work, plan);
    if (result.refusal == MAIZESPELL_PLAN_SHORT) {
        plan = Bytes(result.place);
        result = lend_to_routing(job, map, work, plan);
    }
    throw_if_refused(result);
    plan.resize(result.bytes);
    return {plan, {map, totals_of(result)}};
}

Joined replay(const Bytes &job, const Bytes &plan, const Needs &needs) {
    Map map(needs.map);
    Work work(needs.work);
    const maizespell_replay_result result = maizespell_replay(job.data(), job.size(), plan.data(), plan.size(),
                                                              map.data(), map.size(), work.data(), work.size());
    throw_if_refused(result);
    return {map, totals_of(result)};
}

Reported nothing_reported() { return {Report(MAIZESPELL_REPORT_NEED), 0, {}}; }

void report(const Bytes &job, const Bytes &plan, const Needs &needs, Reported &reported) {
    Map map(needs.map);
    Work work(needs.work);
    const maizespell_replay_result result =
        maizespell_report(job.data(), job.size(), plan.data(), plan.size(), map.data(), map.size(), work.data(),
                          work.size(), reported.counts.data(), reported.counts.size());
    throw_if_refused(result);
    reported.plans += 1;
    reported.totals = reported.totals + totals_of(result);
}

} // namespace host
