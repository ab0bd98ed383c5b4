#include "print.hpp"

#include <algorithm>
#include <array>
#include <functional>
#include <iomanip>
#include <string>

#include "maizespell.h"

namespace host {
namespace {

struct Grid {
    std::size_t layers;
    std::size_t rows;
    std::size_t columns;
};

// From the job's head: edition 4 bits, direction 1; each minus one: layers 3, columns 8, rows 8.
Grid grid_of(const Bytes &job) {
    return {(job.at(0) & 7U) + 1U, job.at(2) + 1U, job.at(1) + 1U};
}

std::string sign_of(std::uint16_t code) {
    switch (code) {
    case MAIZESPELL_MAP_BARE:
        return ".";
    case MAIZESPELL_MAP_SEVERAL_NETS:
        return "*";
    case MAIZESPELL_MAP_OBSTACLE:
        return "#";
    default:
        return std::to_string(code);
    }
}

constexpr std::size_t kinds = MAIZESPELL_REPORT_KINDS;

// Columns of a table: a name, and a number or a word for each kind of count.
template <class Columns> void print_line(std::ostream &out, const std::string &name, const Columns &columns) {
    out << std::left << std::setw(5) << name << std::right;
    for (const auto &column : columns) {
        out << ' ' << std::setw(11) << column;
    }
    out << '\n';
}

// The counts of one layer.
Report counts_of(const Report &counts, std::size_t layer) {
    const auto first = counts.begin() + static_cast<std::ptrdiff_t>(kinds * layer);
    return Report(first, first + kinds);
}

} // namespace

void print_totals(std::ostream &out, const Needs &needs, const Routed &routed) {
    const Totals &totals = routed.joined.totals;
    out << "vertices " << needs.map << '\n'
        << "work numbers " << needs.work << '\n'
        << "plan bytes " << routed.plan.size() << '\n'
        << "cost " << totals.cost << '\n'
        << "added steps " << totals.added << '\n'
        << "penalised segments " << totals.penalties << '\n'
        << "nets fully joined " << totals.joined << '\n';
}

void print_map(std::ostream &out, const Bytes &job, const Map &map) {
    const Grid grid = grid_of(job);
    for (std::size_t vertex = 0; vertex < map.size(); ++vertex) {
        if (vertex % (grid.rows * grid.columns) == 0) {
            out << "layer " << vertex / (grid.rows * grid.columns) << '\n';
        }
        out << std::setw(4) << sign_of(map[vertex]);
        if ((vertex + 1) % grid.columns == 0) {
            out << '\n';
        }
    }
}

void print_report(std::ostream &out, const Reported &reported) {
    const std::array<const char *, kinds> names{"wire steps", "vias", "added steps", "penalised", "guide", "short"};
    print_line(out, "layer", names);
    Report all(kinds);
    for (std::size_t layer = 0; layer < MAIZESPELL_REPORT_LAYERS; ++layer) {
        const Report counts = counts_of(reported.counts, layer);
        if (counts != Report(kinds)) {
            print_line(out, std::to_string(layer), counts);
        }
        std::transform(all.begin(), all.end(), counts.begin(), all.begin(), std::plus<>());
    }
    print_line(out, "all", all);
    out << "plans " << reported.plans << '\n'
        << "cost " << reported.totals.cost << '\n'
        << "nets fully joined " << reported.totals.joined << '\n';
}

} // namespace host
