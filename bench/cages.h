// The cages that are timed, and document 01's words for their tables.
#pragma once

#include <cstddef>
#include <cstdint>
#include <functional>
#include <vector>

constexpr uint32_t kNoTwin = UINT32_MAX;
constexpr int kDepth = 6;

inline uint32_t next(uint32_t h) { return h % 3 == 2 ? h - 2 : h + 1; }
inline uint32_t prev(uint32_t h) { return h % 3 == 0 ? h + 2 : h - 1; }

// H, E and V of a level.
struct Counts {
  uint32_t halfedges, edges, vertices;

  Counts finer() const { return {4 * halfedges, 2 * edges + halfedges, vertices + edges}; }
};

// TWIN, VERT and EDGE of halfedges, x, y, z of vertices in 1/1024 mm and creases of edges: a cage's, or of levels end to end.
struct Tables {
  std::vector<uint32_t> twin, vert, edge;
  std::vector<int32_t> points;
  std::vector<uint8_t> creases;

  bool operator==(const Tables& other) const {
    return twin == other.twin && vert == other.vert && edge == other.edge && points == other.points &&
           creases == other.creases;
  }
};

struct Cage : Tables {
  Counts counts() const;
};

// Lent tables of the room for full depth and a few cells past it, which are to stay.
Tables lent_tables(Counts counts);

// Every byte made the same, so that what is not written shows.
void fill(Tables& lent);

// 16 by columns squares of two triangles each: a torus 400 mm wide, every vertex of six corners.
Cage torus(uint32_t columns);

// The same with every other square cut the other way: vertices of four corners and of eight in turn.
Cage crossed_torus(uint32_t columns);

// As many squares in a sheet of 400 mm by 200 mm, slightly hollow, with a border.
Cage sheet(uint32_t columns);

// Triangles round one inner vertex.
Cage wheel(uint32_t triangles);

// Two vertices of so many corners on one rim, whose vertices have four. Its points are irregular.
Cage double_pyramid(uint32_t corners);

// None of the above has a crease. This is the cage with every tenth inner edge made one, by these numbers in turn.
Cage with_creases(Cage cage, const std::vector<uint8_t>& numbers);

// And with the inner edges between these vertices, from the first to the last: a row of a torus or of a sheet is such a seam.
Cage with_seam(Cage cage, uint32_t first, uint32_t last, uint8_t number);

// The cage with its last vertex made one with the vertex two before it, which is none of its neighbours.
Cage with_split_fan(Cage cage);

// Calls with the cage that has a cell of TWIN, VERT or EDGE changed, one here and one there. Most of these are refused.
void each_changed(const Cage& cage, const std::function<void(const Cage&)>& call);
