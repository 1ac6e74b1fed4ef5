// Engines that write a level as STL beside the proved library, and the report on them.
#pragma once

#include "soups.h"

// Every byte of the file, with no check.
Written write_facets(const Soup& level, std::vector<uint8_t>& file);
Written write_from_floats(const Soup& level, std::vector<uint8_t>& file);

// The library's job from end to end: checks 1, 2, 4, 8 and 9 in this order, then the first of these.
Written write_checked(const Soup& level, std::vector<uint8_t>& file);

// Whether every bar is met.
bool print_stl();
