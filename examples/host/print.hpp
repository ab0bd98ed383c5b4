// What the host writes about a routed job and about a wire report.
#ifndef HOST_PRINT_HPP
#define HOST_PRINT_HPP

#include <ostream>

#include "calls.hpp"

namespace host {

// Needs, plan bytes and totals, one to a line.
void print_totals(std::ostream &out, const Needs &needs, const Routed &routed);

// Layer by layer, a line for each row: . bare, * several nets, # obstacle, else the net. For a good job.
void print_map(std::ostream &out, const Bytes &job, const Map &map);

// A line for each layer with a count, one for all of them, and how many plans with their cost and joined nets.
void print_report(std::ostream &out, const Reported &reported);

} // namespace host

#endif
