// What a refusal says to a person.
#ifndef HOST_REFUSALS_HPP
#define HOST_REFUSALS_HPP

#include <cstdint>
#include <stdexcept>
#include <string>

namespace host {

// "refused 8, pin outside or on an obstacle: bit 173"
std::string words_of_refusal(std::uint64_t number, std::uint64_t place);

// A call has turned its job or plan back.
class Refused : public std::runtime_error {
public:
    Refused(std::uint64_t number, std::uint64_t place)
        : std::runtime_error(words_of_refusal(number, place)) {}
};

} // namespace host

#endif
