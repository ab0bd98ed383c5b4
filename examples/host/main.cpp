// Routes the job in a file, replays its plan, and prints totals and map. The plan's bytes go to a second
// file, if one is named. Or, with --report, replays plans against their jobs and prints the wire report over
// all of them.
//
// Exit status: 0 routed, and replay confirms it, or each plan reported; 1 refused, the message on standard
// error says why; 2 bad usage, or a file could not be read or written; 3 replay does not confirm the plan.
#include <algorithm>
#include <exception>
#include <iostream>
#include <string>
#include <vector>

#include "calls.hpp"
#include "files.hpp"
#include "print.hpp"
#include "refusals.hpp"

namespace {

enum Exit { all_well = 0, was_refused = 1, no_job = 2, not_confirmed = 3 };

using Paths = std::vector<std::string>;

constexpr const char *usage_of_routing = "usage: host JOB-FILE [PLAN-FILE]\n";
constexpr const char *help_of_routing =
    "Routes the job whose bytes are in JOB-FILE, replays its plan, and prints totals and map.\n"
    "The plan's bytes go to PLAN-FILE, if one is named.\n";
constexpr const char *usage_of_report = "usage: host --report JOB-FILE PLAN-FILE [JOB-FILE PLAN-FILE ..]\n";
constexpr const char *help_of_report =
    "Replays each plan against its job and prints the wire report over all plans that are accepted:\n"
    "counts layer by layer, those of all layers, and the plans' cost.\n";
constexpr const char *help_of_both =
    "Exit status: 0 routed or reported, 1 refused, 2 bad usage or file, 3 replay does not confirm the plan.\n";

// Replay must give the map and the totals that came with the plan.
bool confirmed(const host::Bytes &job, const host::Needs &needs, const host::Routed &routed) {
    try {
        const host::Joined replayed = host::replay(job, routed.plan, needs);
        return replayed.map == routed.joined.map && replayed.totals == routed.joined.totals;
    } catch (const host::Refused &) {
        return false;
    }
}

// What work on a file answers; where it is refused or fails, that is said with the file's path.
template <class Work> Exit on_file(const std::string &path, Work work) {
    try {
        return work();
    } catch (const host::Refused &refused) {
        std::cerr << path << ": " << refused.what() << '\n';
        return was_refused;
    } catch (const std::exception &error) {
        std::cerr << path << ": " << error.what() << '\n';
        return no_job;
    }
}

Exit route(const std::string &path, const std::string *plan_path) {
    const host::Bytes job = host::read_file(path);
    const host::Needs needs = host::size(job);
    const host::Routed routed = host::route(job, needs);
    if (!confirmed(job, needs, routed)) {
        std::cerr << path << ": replay does not confirm the plan\n";
        return not_confirmed;
    }
    if (plan_path != nullptr) {
        host::write_file(*plan_path, routed.plan);
    }
    host::print_totals(std::cout, needs, routed);
    host::print_map(std::cout, job, routed.joined.map);
    return all_well;
}

Exit add_plan(host::Reported &reported, const std::string &path, const std::string &plan_path) {
    host::Bytes job;
    host::Needs needs{};
    const Exit sized = on_file(path, [&] {
        job = host::read_file(path);
        needs = host::size(job);
        return all_well;
    });
    if (sized != all_well) {
        return sized;
    }
    return on_file(plan_path, [&] {
        host::report(job, host::read_file(plan_path), needs, reported);
        return all_well;
    });
}

// Each job with its plan; one that is refused or cannot be read adds nothing, and the others go on.
Exit report(const Paths &paths) {
    host::Reported reported = host::nothing_reported();
    Exit worst = all_well;
    for (std::size_t pair = 0; pair < paths.size(); pair += 2) {
        worst = std::max(worst, add_plan(reported, paths[pair], paths[pair + 1]));
    }
    host::print_report(std::cout, reported);
    return worst;
}

} // namespace

int main(int count, char **arguments) {
    const Paths given(arguments + std::min(count, 1), arguments + count);
    const std::string first = given.empty() ? "" : given.front();
    if (given.size() <= 2 && (first == "--help" || first == "-h")) {
        std::cout << usage_of_routing << help_of_routing << usage_of_report << help_of_report << help_of_both;
        return all_well;
    }
    if (first == "--report" && given.size() >= 3 && given.size() % 2 == 1) {
        return report(Paths(given.begin() + 1, given.end()));
    }
    if (first == "--report" || given.empty() || given.size() > 2) {
        std::cerr << usage_of_routing << usage_of_report;
        return no_job;
    }
    return on_file(first, [&] { return route(first, given.size() == 2 ? &given.back() : nullptr); });
}
