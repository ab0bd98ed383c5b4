// Files of bytes.
#ifndef HOST_FILES_HPP
#define HOST_FILES_HPP

#include <string>

#include "calls.hpp"

namespace host {

// The whole file; throws std::runtime_error where it cannot be read.
Bytes read_file(const std::string &path);

// The bytes as a file; throws std::runtime_error where it cannot be written.
void write_file(const std::string &path, const Bytes &bytes);

} // namespace host

#endif
