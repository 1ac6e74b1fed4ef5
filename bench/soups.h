// Plain triangles that are timed: corner numbers and points, without twins or edges.
#pragma once

#include <array>
#include <string>

#include "cages.h"

struct Soup {
  std::string name;
  std::vector<uint32_t> vert;
  std::vector<int32_t> points;
};

// The two tables that building is lent.
struct Joins {
  std::vector<uint32_t> twin, edge;

  bool operator==(const Joins& other) const { return twin == other.twin && edge == other.edge; }
};

// Number, place, H, E, F, V and B.
using Answer = std::array<uint32_t, 7>;

// Number, place and length.
using Written = std::array<uint32_t, 3>;

// Cages of 3,072 halfedges, to be accepted: a closed one, an open one, and one vertex of 1,024 corners.
std::vector<Soup> accepted_soups();

// The closed one with its last triangle as the one before it, and with vertex numbers of all 32 bits, to be refused.
std::vector<Soup> refused_soups();

// Soups meant to take long, whatever way pairs are found: few numbers, numbers with most bits alike, pairs that share an
// end, pairs that the multipliers of well-known hashes bring together.
std::vector<Soup> crafted_soups();
