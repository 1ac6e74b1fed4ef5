// One halfedge of a level by hand: its three cells follow from those of a single halfedge of the level before.
#include "checked.h"
#include "halfedge.h"

namespace {

struct Cells {
  uint32_t twin, vert, edge;
};

// The rows of document 01's table, with H, E and V of each level below the depth at hand. A missing twin counts as lower.
Cells climb(const Cage& cage, const Counts* levels, uint64_t depth, uint32_t halfedge) {
  if (depth == 0) return {cage.twin[halfedge], cage.vert[halfedge], cage.edge[halfedge]};
  const auto [halfedges, edges, vertices] = levels[depth - 1];
  const bool is_middle = halfedge >= 3 * halfedges;
  const uint32_t h = is_middle ? halfedge - 3 * halfedges : halfedge / 3, row = is_middle ? 3 : halfedge % 3;
  const uint32_t from = row < 2 ? h : prev(h);
  const auto [t, v, e] = climb(cage, levels, depth - 1, from);
  const bool is_border = t == kNoTwin, is_lower = !is_border && from < t;
  switch (row) {
    case 0:
      return {is_border ? kNoTwin : 3 * next(t) + 2, v, 2 * e + is_lower};
    case 1:
      return {3 * halfedges + h, vertices + e, 2 * edges + h};
    case 2:
      return {is_border ? kNoTwin : 3 * t, vertices + e, 2 * e + !is_lower};
    default:
      return {3 * h + 1, vertices + e, 2 * edges + h};
  }
}

}  // namespace

Halfedge halfedge_climbed(const Cage& cage, Counts counts, uint64_t depth, uint64_t halfedge) {
  Counts levels[kDepth];
  for (uint64_t level = 0; level < depth; ++level, counts = counts.finer()) levels[level] = counts;
  const auto [twin, vert, edge] = climb(cage, levels, depth, uint32_t(halfedge));
  return {RYEBADGER_DONE, 0, twin, vert, edge};
}

Halfedge halfedge_by_hand(const Cage& cage, uint64_t depth, uint64_t halfedge) {
  Counts counts{};
  if (const Verdict verdict = check_tables(cage, cage.points.size() / 3, depth, counts))
    return {verdict.number, verdict.place};
  if (halfedge >= uint64_t(counts.halfedges) << 2 * depth) return {RYEBADGER_NO_SUCH_HALFEDGE, halfedge};
  return halfedge_climbed(cage, counts, depth, halfedge);
}
