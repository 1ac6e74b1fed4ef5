// One halfedge of a level without the levels, by hand beside the proved library, and the report on it.
#pragma once

#include <array>

#include "cages.h"

// Number, place, TWIN, VERT and EDGE.
using Halfedge = std::array<uint64_t, 5>;

// The library's job from end to end: checks 1 to 7 of the three tables and V, then 17, then the climb.
Halfedge halfedge_by_hand(const Cage& cage, uint64_t depth, uint64_t halfedge);

// The climb alone, with no check, where H, E and V of the cage are known.
Halfedge halfedge_climbed(const Cage& cage, Counts counts, uint64_t depth, uint64_t halfedge);

// There is no bar.
void print_halfedge();
