#include "refusals.hpp"

#include <array>

#include "maizespell.h"

namespace host {
namespace {

struct Entry {
    maizespell_refusal number;
    const char *words;
    const char *place; // what the place counts
};

constexpr std::array<Entry, 17> entries{{
    {MAIZESPELL_JOB_TOO_LONG, "job over 262,144 bytes", "bit"},
    {MAIZESPELL_GROUP_NOT_WHOLE, "group not whole", "bit"},
    {MAIZESPELL_EDITION_NOT_1, "edition not 1", "bit"},
    {MAIZESPELL_TOO_MANY_VERTICES, "vertices over 16,384", "bit"},
    {MAIZESPELL_LAYER_LINE_RULE_BROKEN, "layer line rule broken", "bit"},
    {MAIZESPELL_OBSTACLE_OUTSIDE, "obstacle outside", "bit"},
    {MAIZESPELL_PIN_OUTSIDE_OR_ON_OBSTACLE, "pin outside or on an obstacle", "bit"},
    {MAIZESPELL_PIN_ON_EARLIER_PIN, "pin on an earlier pin", "bit"},
    {MAIZESPELL_BOX_CROSSED_OR_OUTSIDE, "box with low above high, or outside", "bit"},
    {MAIZESPELL_TAIL_BIT_SET_OR_MORE_BYTES, "tail bit set or more bytes", "bit"},
    {MAIZESPELL_MAP_SHORT, "map short", "numbers needed"},
    {MAIZESPELL_WORK_SHORT, "work short", "numbers needed"},
    {MAIZESPELL_PLAN_SHORT, "plan short", "bytes needed"},
    {MAIZESPELL_PLAN_NOT_WHOLE_OR_TAIL_WRONG, "plan not whole, or its tail wrong", "plan bit"},
    {MAIZESPELL_START_NOT_ON_TREE, "start not on the tree", "plan bit"},
    {MAIZESPELL_MOVE_NOT_LEGAL, "move not legal, or not to the right pin", "plan bit"},
    {MAIZESPELL_COST_DIFFERS, "cost differs", "plan bit"},
}};

// The two of the wire report, told apart by the place.
constexpr Entry report_short{MAIZESPELL_REPORT_SHORT_OR_OVER, "report of fewer than 48 numbers", "place"};
constexpr Entry count_over{MAIZESPELL_REPORT_SHORT_OR_OVER, "a count of the report would pass 2^64 - 1", "layer"};

// The entry of a refusal, or null for a number without one.
const Entry *entry_of(std::uint64_t number, std::uint64_t place) {
    if (number == MAIZESPELL_REPORT_SHORT_OR_OVER) {
        return place < MAIZESPELL_REPORT_LAYERS ? &count_over : &report_short;
    }
    for (const Entry &entry : entries) {
        if (number == entry.number) {
            return &entry;
        }
    }
    return nullptr;
}

} // namespace

std::string words_of_refusal(std::uint64_t number, std::uint64_t place) {
    const std::string refused = "refused " + std::to_string(number);
    if (const Entry *entry = entry_of(number, place)) {
        return refused + ", " + entry->words + ": " + entry->place + " " + std::to_string(place);
    }
    return refused + ", a number without a name: place " + std::to_string(place);
}

} // namespace host
