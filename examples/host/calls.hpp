// The library's calls over slices that vectors own. Each throws Refused where the library refuses.
#ifndef HOST_CALLS_HPP
#define HOST_CALLS_HPP

#include <cstddef>
#include <cstdint>
#include <vector>

namespace host {

using Bytes = std::vector<std::uint8_t>;
using Map = std::vector<std::uint16_t>;
using Work = std::vector<std::uint64_t>;
using Report = std::vector<std::uint64_t>;

// What routing and replay need of a job's slices.
struct Needs {
    std::size_t map;
    std::size_t work;
};

struct Totals {
    std::uint64_t cost;
    std::uint64_t added;
    std::uint64_t penalties;
    std::uint64_t joined;
};

bool operator==(const Totals &left, const Totals &right);

// What stands once a plan's joins are made.
struct Joined {
    Map map;
    Totals totals;
};

struct Routed {
    Bytes plan;
    Joined joined;
};

// The wire report over plans, how many they are, and their totals.
struct Reported {
    Report counts;
    std::size_t plans;
    Totals totals;
};

Needs size(const Bytes &job);

// Plan bytes that are enough for most jobs.
std::size_t plan_guess(const Bytes &job, const Needs &needs);

// The plan's need is known only after routing: the guess is lent first, and where it is short, what the
// refusal asks for.
Routed route(const Bytes &job, const Needs &needs);

Joined replay(const Bytes &job, const Bytes &plan, const Needs &needs);

// The report over no plan.
Reported nothing_reported();

// Replays a plan and adds it to what is reported. Where it is refused, nothing is added.
void report(const Bytes &job, const Bytes &plan, const Needs &needs, Reported &reported);

} // namespace host

#endif
