// What is compared and not timed: every cell of the C++ engines with the library's, and points with OpenSubdiv's.
#pragma once

#include <string>

#include "cages.h"
#include "weights.h"

// The library's levels to full depth, once every cell is found to be the other engines' too.
Tables compared(const Cage& cage, Weight weight);

#ifdef HAVE_OPENSUBDIV
// How far the points of the last level are from OpenSubdiv's by the paper's weight, and what rounding explains: the heads of
// the columns, and a row for a cage whose vertices have no more corners than this.
void print_distance_heads();
void print_distance(const std::string& name, const Cage& cage, uint32_t most_corners);
#endif
