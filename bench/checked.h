// The cage check by hand, which the engines that take files, that say why and that climb share.
#pragma once

#include "joined.h"
#include "levels.h"

struct Verdict {
  uint32_t number = RYEBADGER_DONE, place = 0;

  explicit operator bool() const { return number != RYEBADGER_DONE; }
};

// The lowest halfedge whose twin is none, or H.
inline uint32_t first_bad_twin(const uint32_t* twin, uint32_t halfedges) {
  uint32_t h = 0;
  for (; h < halfedges; ++h) {
    const uint32_t t = twin[h];
    if (t != kNoTwin && (t >= halfedges || t == h || twin[t] != h)) break;
  }
  return h;
}

inline uint32_t count_edges(const uint32_t* twin, uint32_t halfedges) {
  uint32_t edges = 0;
  for (uint32_t h = 0; h < halfedges; ++h) edges += twin[h] == kNoTwin || twin[h] < h;
  return edges;
}

// 4: the lowest such halfedge, or H; and for 5 and 7 the corners at each vertex.
inline uint32_t first_bad_corner(const Level& cage, Corners& corners) {
  const auto [halfedges, edges, vertices] = cage.counts;
  std::fill_n(corners.count.begin(), vertices, 0);
  uint32_t h = 0;
  for (; h < halfedges; ++h) {
    const uint32_t v = cage.vert[h], end = cage.vert[next(h)], t = cage.twin[h];
    if (v >= vertices || v == end || (t != kNoTwin && cage.vert[t] != end)) break;
    ++corners.count[v];
    corners.one[v] = h;
  }
  return h;
}

// 6: the lowest such halfedge, or H; and for 15 the first halfedge of each edge. A further one that is not its twin is the
// first one's fault.
inline uint32_t first_bad_edge(const Level& cage, uint32_t* first) {
  const auto [halfedges, edges, vertices] = cage.counts;
  std::fill_n(first, edges, kNoTwin);
  uint32_t bad = halfedges;
  for (uint32_t h = 0; h < halfedges; ++h) {
    const uint32_t e = cage.edge[h], t = cage.twin[h];
    if (e >= edges || (t != kNoTwin && cage.edge[t] != e)) bad = std::min(bad, h);
    if (e >= edges) continue;
    if (first[e] == kNoTwin)
      first[e] = h;
    else if (first[e] != t)
      bad = std::min(bad, first[e]);
  }
  return bad;
}

// 15: the lowest such edge, or E.
inline uint32_t first_bad_crease(const Level& cage, const uint32_t* first) {
  uint32_t e = 0;
  for (; e < cage.counts.edges; ++e)
    if (cage.creases[e] > (cage.twin[first[e]] == kNoTwin ? 0 : RYEBADGER_MOST_CREASE)) break;
  return e;
}

// 4 to 6; and for 7 the corners at each vertex, for 15 the first halfedge of each edge.
inline Verdict check_4_to_6(const Level& cage, Corners& corners, uint32_t* first) {
  const auto [halfedges, edges, vertices] = cage.counts;
  const uint32_t corner = first_bad_corner(cage, corners);
  if (corner < halfedges) return {RYEBADGER_VERTEX, corner};
  const uint32_t unused = first_unused(corners, vertices);
  if (unused < vertices) return {RYEBADGER_UNUSED, unused};
  const uint32_t edge = first_bad_edge(cage, first);
  if (edge < halfedges) return {RYEBADGER_EDGE, edge};
  return {};
}

// 7.
inline Verdict check_fans(const Level& cage, const Corners& corners) {
  const uint32_t split = first_without_one_fan(cage.twin, corners, cage.counts.vertices);
  if (split < cage.counts.vertices) return {RYEBADGER_FAN, split};
  return {};
}

// The cage check from 4 on.
inline Verdict check_from_4(const Level& cage) {
  const auto [halfedges, edges, vertices] = cage.counts;
  Corners corners;
  uint32_t first[kMost];
  if (const Verdict verdict = check_4_to_6(cage, corners, first)) return verdict;
  const uint32_t crease = first_bad_crease(cage, first);
  if (crease < edges) return {RYEBADGER_CREASE, crease};
  if (const Verdict verdict = check_fans(cage, corners)) return verdict;
  const uint32_t far = first_out_of_range(cage.points, 3 * vertices);
  if (far < 3 * vertices) return {RYEBADGER_POINT, far};
  return {};
}

// 1 to 3 of the three tables, V and a depth, and the counts once the twins have passed.
inline Verdict check_to_3(const Tables& cage, size_t vertices, uint64_t depth, Counts& counts) {
  const size_t halfedges = cage.twin.size();
  if (halfedges == 0 || halfedges % 3 != 0 || cage.vert.size() != halfedges || cage.edge.size() != halfedges)
    return {RYEBADGER_SHAPE, 0};
  if (halfedges > RYEBADGER_MOST_HALFEDGES || vertices > RYEBADGER_MOST_VERTICES || depth > RYEBADGER_MOST_DEPTH)
    return {RYEBADGER_LIMIT, 0};
  const uint32_t h = uint32_t(halfedges), twin = first_bad_twin(cage.twin.data(), h);
  if (twin < h) return {RYEBADGER_TWIN, twin};
  counts = {h, count_edges(cage.twin.data(), h), uint32_t(vertices)};
  return {};
}

// The cage check, and the counts once the twins have passed.
inline Verdict check(const Cage& cage, Counts& counts) {
  if (cage.points.size() % 3 != 0) return {RYEBADGER_SHAPE, 0};
  if (const Verdict verdict = check_to_3(cage, cage.points.size() / 3, 0, counts)) return verdict;
  if (cage.creases.size() != counts.edges) return {RYEBADGER_SHAPE, 0};
  return check_from_4({counts, cage.twin.data(), cage.vert.data(), cage.edge.data(), cage.points.data(), cage.creases.data()});
}

// 1 to 7 of the three tables, V and a depth, and the counts once the twins have passed.
inline Verdict check_tables(const Tables& cage, size_t vertices, uint64_t depth, Counts& counts) {
  if (const Verdict verdict = check_to_3(cage, vertices, depth, counts)) return verdict;
  const Level tables{counts, cage.twin.data(), cage.vert.data(), cage.edge.data(), nullptr, nullptr};
  Corners corners;
  uint32_t first[kMost];
  if (const Verdict verdict = check_4_to_6(tables, corners, first)) return verdict;
  return check_fans(tables, corners);
}
