// A slice that lies against a page that cannot be touched: a read or a write past that end ends the process.
// What is left of its own pages holds a guard byte, which must still stand afterwards.
#ifndef HOST_GUARDED_HPP
#define HOST_GUARDED_HPP

#include <algorithm>
#include <cstddef>
#include <new>
#include <vector>

#include <sys/mman.h>
#include <unistd.h>

namespace host {

enum class End { front, back };

// Pages between two that cannot be touched.
class Pages {
public:
    explicit Pages(std::size_t bytes)
        : page(static_cast<std::size_t>(sysconf(_SC_PAGESIZE))), inner((bytes + page - 1) / page * page) {
        void *all = mmap(nullptr, inner + 2 * page, PROT_NONE, MAP_PRIVATE | MAP_ANONYMOUS, -1, 0);
        if (all == MAP_FAILED) {
            throw std::bad_alloc();
        }
        outer = static_cast<unsigned char *>(all);
        if (inner > 0 && mprotect(begin(), inner, PROT_READ | PROT_WRITE) != 0) {
            munmap(outer, inner + 2 * page);
            throw std::bad_alloc();
        }
    }
    ~Pages() { munmap(outer, inner + 2 * page); }
    Pages(const Pages &) = delete;
    Pages &operator=(const Pages &) = delete;

    unsigned char *begin() const { return outer + page; }
    unsigned char *end() const { return begin() + inner; }

private:
    std::size_t page;
    std::size_t inner;
    unsigned char *outer = nullptr;
};

template <class Number> class Guarded {
public:
    // A copy of the vector, with its front or its back against the guard page.
    Guarded(const std::vector<Number> &content, End end)
        : pages(content.size() * sizeof(Number)), length(content.size()) {
        std::fill(pages.begin(), pages.end(), guard);
        const std::size_t bytes = length * sizeof(Number);
        first = reinterpret_cast<Number *>(end == End::front ? pages.begin() : pages.end() - bytes);
        std::copy(content.begin(), content.end(), first);
    }

    Number *data() { return first; }
    std::size_t size() const { return length; }
    std::vector<Number> content() const { return std::vector<Number>(first, first + length); }

    // Whether the guard bytes stand around the slice.
    bool guard_stands() const {
        const auto stands = [](unsigned char byte) { return byte == guard; };
        return std::all_of(pages.begin(), reinterpret_cast<unsigned char *>(first), stands) &&
               std::all_of(reinterpret_cast<unsigned char *>(first + length), pages.end(), stands);
    }

private:
    static constexpr unsigned char guard = 0xA7;
    Pages pages;
    std::size_t length;
    Number *first;
};

} // namespace host

#endif
