// Tests the wire report of a good job's plan.
#ifndef HOST_REPORTS_HPP
#define HOST_REPORTS_HPP

#include "lent.hpp"

namespace host {

void test_reports(const Case &of, End end);

} // namespace host

#endif
