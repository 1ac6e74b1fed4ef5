// Engines that answer the count question beside the proved library, and the report on them.
#pragma once

#include <array>
#include <cstdint>

#include "ryebadger.h"

// H, E, V and the depth.
struct CountQuestion {
  uint64_t halfedges, edges, vertices, depth;
};

using Counted = std::array<uint32_t, RYEBADGER_COUNTS_ANSWER>;

// The library's job from end to end, checks 1 and 2 first: level after level, and each level by the paper's equations 4 to 6.
void count_stepping(const CountQuestion& question, Counted& answer);
void count_directly(const CountQuestion& question, Counted& answer);

// Whether every bar is met.
bool print_counts();
