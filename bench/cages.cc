#include "cages.h"

#include <cmath>
#include <cstring>
#include <map>
#include <utility>

namespace {

constexpr uint32_t kRows = 16;
constexpr double kTurn = 6.283185307179586;  // a full turn, in radians

// A cage from the corners of its triangles: two halfedges are twins where they join the same vertices, opposite ways.
Cage sewn(const std::vector<uint32_t>& corners) {
  Cage cage;
  cage.vert = corners;
  std::map<std::pair<uint32_t, uint32_t>, uint32_t> joining;
  for (uint32_t h = 0; h < corners.size(); ++h) joining[{corners[h], corners[next(h)]}] = h;
  uint32_t edges = 0;
  for (uint32_t h = 0; h < corners.size(); ++h) {
    const auto found = joining.find({corners[next(h)], corners[h]});
    const uint32_t twin = found == joining.end() ? kNoTwin : found->second;
    cage.twin.push_back(twin);
    cage.edge.push_back(twin < h ? cage.edge[twin] : edges++);
  }
  cage.creases.assign(edges, 0);
  return cage;
}

// Squares of two triangles each; a grid as high or as wide as its squares closes on itself that way. Crossed, every other
// square is cut the other way, which is to start from its next corner.
Cage grid(uint32_t columns, uint32_t high, uint32_t wide, bool crossed = false) {
  const auto at = [=](uint32_t row, uint32_t column) { return row % high * wide + column % wide; };
  std::vector<uint32_t> corners;
  for (uint32_t r = 0; r < kRows; ++r)
    for (uint32_t c = 0; c < columns; ++c) {
      const uint32_t square[] = {at(r, c), at(r, c + 1), at(r + 1, c + 1), at(r + 1, c)};
      const uint32_t first = crossed ? (r + c) % 2 : 0;
      for (uint32_t i : {0, 1, 2, 0, 2, 3}) corners.push_back(square[(first + i) % 4]);
    }
  return sewn(corners);
}

void add_point(Cage& cage, double x, double y, double z) {
  for (double millimetres : {x, y, z}) cage.points.push_back(int32_t(std::lround(1024 * millimetres)));
}

Cage torus_of(Cage cage, uint32_t columns) {
  for (uint32_t r = 0; r < kRows; ++r)
    for (uint32_t c = 0; c < columns; ++c) {
      const double around = kTurn * c / columns, across = kTurn * r / kRows, out = 140 + 60 * std::cos(across);
      add_point(cage, out * std::cos(around), out * std::sin(around), 60 * std::sin(across));
    }
  return cage;
}

}  // namespace

Counts Cage::counts() const {
  uint32_t edges = 0;
  for (uint32_t h = 0; h < twin.size(); ++h) edges += twin[h] == kNoTwin || twin[h] < h;
  return {uint32_t(twin.size()), edges, uint32_t(points.size() / 3)};
}

Tables lent_tables(Counts counts) {
  size_t halfedges = 7, points = 7, edges = 7;
  for (int level = 0; level <= kDepth; ++level, counts = counts.finer())
    halfedges += counts.halfedges, points += 3 * counts.vertices, edges += counts.edges;
  const std::vector<uint32_t> table(halfedges);
  return {table, table, table, std::vector<int32_t>(points), std::vector<uint8_t>(edges)};
}

void fill(Tables& lent) {
  for (auto* table : {&lent.twin, &lent.vert, &lent.edge}) std::memset(table->data(), 0xab, 4 * table->size());
  std::memset(lent.points.data(), 0xab, 4 * lent.points.size());
  std::memset(lent.creases.data(), 0xab, lent.creases.size());
}

Cage torus(uint32_t columns) { return torus_of(grid(columns, kRows, columns), columns); }

Cage crossed_torus(uint32_t columns) { return torus_of(grid(columns, kRows, columns, true), columns); }

Cage sheet(uint32_t columns) {
  Cage cage = grid(columns, kRows + 1, columns + 1);
  for (uint32_t r = 0; r <= kRows; ++r)
    for (uint32_t c = 0; c <= columns; ++c) {
      const double x = 400.0 * c / columns - 200, y = 200.0 * r / kRows - 100;
      add_point(cage, x, y, 1e-3 * (x * x + y * y));
    }
  return cage;
}

Cage wheel(uint32_t triangles) {
  std::vector<uint32_t> corners;
  for (uint32_t i = 0; i < triangles; ++i)
    for (uint32_t corner : {0u, 1 + i, 1 + (i + 1) % triangles}) corners.push_back(corner);
  Cage cage = sewn(corners);
  add_point(cage, 0, 0, 30);
  for (uint32_t i = 0; i < triangles; ++i)
    add_point(cage, 200 * std::cos(kTurn * i / triangles), 200 * std::sin(kTurn * i / triangles), 0);
  return cage;
}

Cage double_pyramid(uint32_t corners) {
  std::vector<uint32_t> all;
  for (uint32_t i = 0; i < corners; ++i) {
    const uint32_t rim = 2 + i, after = 2 + (i + 1) % corners;
    all.insert(all.end(), {0, rim, after, 1, after, rim});
  }
  Cage cage = sewn(all);
  add_point(cage, 11, -7, 160);
  add_point(cage, -23, 5, -90);
  for (uint32_t i = 0; i < corners; ++i) {
    const double around = kTurn * (i + 0.3 * std::sin(i)) / corners, out = 150 + 40 * std::cos(2.7 * i);
    add_point(cage, out * std::cos(around), out * std::sin(around), 30 * std::sin(1.9 * i));
  }
  return cage;
}

Cage with_creases(Cage cage, const std::vector<uint8_t>& numbers) {
  uint32_t inner = 0;
  for (uint32_t h = 0; h < cage.twin.size(); ++h)
    if (cage.twin[h] < h && inner++ % 10 == 0) cage.creases[cage.edge[h]] = numbers[inner / 10 % numbers.size()];
  return cage;
}

Cage with_seam(Cage cage, uint32_t first, uint32_t last, uint8_t number) {
  const auto on_seam = [=](uint32_t v) { return first <= v && v <= last; };
  for (uint32_t h = 0; h < cage.twin.size(); ++h)
    if (cage.twin[h] != kNoTwin && on_seam(cage.vert[h]) && on_seam(cage.vert[next(h)])) cage.creases[cage.edge[h]] = number;
  return cage;
}

Cage with_split_fan(Cage cage) {
  const uint32_t last = cage.counts().vertices - 1;
  for (uint32_t& vertex : cage.vert)
    if (vertex == last) vertex -= 2;
  cage.points.resize(3 * last);
  return cage;
}

void each_changed(const Cage& cage, const std::function<void(const Cage&)>& call) {
  constexpr size_t kStep = 31;
  for (const auto table : {&Tables::twin, &Tables::vert, &Tables::edge})
    for (size_t at = 0; at < cage.twin.size(); at += kStep) {
      const uint32_t cell = (cage.*table)[at], before = (cage.*table)[at / 2];
      for (const uint32_t other : {uint32_t(at), cell ^ 1, before, 5000u, kNoTwin}) {
        Cage changed = cage;
        (changed.*table)[at] = other;
        changed.creases.resize(changed.counts().edges);
        call(changed);
      }
    }
}
