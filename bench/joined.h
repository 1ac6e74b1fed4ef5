// What the engines that build and those that check cages by hand share: every check but 13 of plain triangles, and the counts.
#pragma once

#include <algorithm>

#include "ryebadger.h"
#include "soups.h"

constexpr size_t kMost = RYEBADGER_MOST_HALFEDGES;

inline Answer refused(uint32_t number, size_t place) { return {number, uint32_t(place)}; }

// The corners at each vertex, and one of them.
struct Corners {
  std::array<uint32_t, RYEBADGER_MOST_VERTICES> count, one;
};

// The lowest halfedge with a vertex past the points or with both ends alike, or H; the corners are noted on the way.
inline uint32_t first_bad_vertex(const Soup& soup, Corners& corners) {
  const uint32_t halfedges = uint32_t(soup.vert.size()), vertices = uint32_t(soup.points.size() / 3);
  std::fill_n(corners.count.begin(), vertices, 0);
  for (uint32_t h = 0; h < halfedges; ++h) {
    const uint32_t v = soup.vert[h];
    if (v >= vertices || v == soup.vert[next(h)]) return h;
    ++corners.count[v];
    corners.one[v] = h;
  }
  return halfedges;
}

// How many corners the fan of a halfedge has: round to where it started, or to a border and then the other way.
inline uint32_t fan_size(const uint32_t* twin, uint32_t start) {
  uint32_t size = 1;
  for (uint32_t h = twin[prev(start)]; h != start; h = twin[prev(h)], ++size)
    if (h == kNoTwin) {
      for (uint32_t t = twin[start]; t != kNoTwin; t = twin[next(t)]) ++size;
      return size;
    }
  return size;
}

inline size_t first_without_one_fan(const uint32_t* twin, const Corners& corners, size_t vertices) {
  size_t v = 0;
  while (v < vertices && fan_size(twin, corners.one[v]) == corners.count[v]) ++v;
  return v;
}

inline size_t first_unused(const Corners& corners, size_t vertices) {
  const auto counts = corners.count.begin();
  return std::find(counts, counts + vertices, 0u) - counts;
}

inline bool in_range(int32_t coordinate) {
  return coordinate >= -RYEBADGER_MOST_COORDINATE && coordinate <= RYEBADGER_MOST_COORDINATE;
}

inline size_t first_out_of_range(const int32_t* points, size_t cells) {
  return std::find_if_not(points, points + cells, in_range) - points;
}

// Both tables into the lent ones, edges in the order of their lowest halfedges.
inline Answer write_joins(const uint32_t* twin, uint32_t halfedges, uint32_t vertices, Joins& lent) {
  uint32_t edges = 0, borders = 0;
  for (uint32_t h = 0; h < halfedges; ++h) {
    lent.twin[h] = twin[h];
    lent.edge[h] = twin[h] < h ? lent.edge[twin[h]] : edges++;
    borders += twin[h] == kNoTwin;
  }
  return {RYEBADGER_DONE, 0, halfedges, edges, halfedges / 3, vertices, borders};
}

// All checks in their order. join(vert, twin) fills TWIN and gives the lowest halfedge that has a double, or kNoTwin.
template <class Join>
Answer build_with(const Soup& soup, Joins& lent, Join join) {
  const size_t halfedges = soup.vert.size(), vertices = soup.points.size() / 3;
  if (halfedges == 0 || halfedges % 3 != 0 || soup.points.size() % 3 != 0) return refused(RYEBADGER_SHAPE, 0);
  if (halfedges > kMost || vertices > RYEBADGER_MOST_VERTICES) return refused(RYEBADGER_LIMIT, 0);
  uint32_t twin[kMost];
  const uint32_t doubled = join(soup.vert, twin);
  if (doubled != kNoTwin) return refused(RYEBADGER_DOUBLED, doubled);
  Corners corners;
  const uint32_t bad = first_bad_vertex(soup, corners);
  if (bad < halfedges) return refused(RYEBADGER_VERTEX, bad);
  const size_t unused = first_unused(corners, vertices);
  if (unused < vertices) return refused(RYEBADGER_UNUSED, unused);
  const size_t split = first_without_one_fan(twin, corners, vertices);
  if (split < vertices) return refused(RYEBADGER_FAN, split);
  const size_t far = first_out_of_range(soup.points.data(), soup.points.size());
  if (far < soup.points.size()) return refused(RYEBADGER_POINT, far);
  if (lent.twin.size() < halfedges) return refused(RYEBADGER_ROOM, 1);
  if (lent.edge.size() < halfedges) return refused(RYEBADGER_ROOM, 3);
  return write_joins(twin, uint32_t(halfedges), uint32_t(vertices), lent);
}
