// Why a cage is sent back, by hand: the check, and then the clauses at its place alone.
#include "checked.h"
#include "why.h"

namespace {

// The clause, and the numbers that show it.
using Clause = std::array<uint32_t, 4>;

Clause twin_clause(const Cage& cage, uint32_t h) {
  const uint32_t t = cage.twin[h], halfedges = uint32_t(cage.twin.size());
  if (t >= halfedges) return {RYEBADGER_TWIN_PAST_TABLE, t, halfedges};
  if (t == h) return {RYEBADGER_TWIN_ITSELF, t};
  return {RYEBADGER_TWIN_NOT_RETURNED, t, cage.twin[t]};
}

Clause vertex_clause(const Cage& cage, uint32_t h) {
  const uint32_t v = cage.vert[h], end = cage.vert[next(h)], vertices = uint32_t(cage.points.size() / 3);
  if (v >= vertices) return {RYEBADGER_VERTEX_PAST_POINTS, v, vertices};
  if (v == end) return {RYEBADGER_ENDS_ALIKE, v, next(h)};
  const uint32_t t = cage.twin[h];
  return {RYEBADGER_TWIN_ENDS_DIFFER, t, cage.vert[t], end};
}

Clause edge_clause(const Cage& cage, uint32_t h, uint32_t edges) {
  const uint32_t e = cage.edge[h], t = cage.twin[h];
  if (e >= edges) return {RYEBADGER_EDGE_PAST_COUNT, e, edges};
  if (t != kNoTwin && cage.edge[t] != e) return {RYEBADGER_EDGE_DIFFERS, t, e, cage.edge[t]};
  uint32_t stranger = 0;
  while (cage.edge[stranger] != e || stranger == h || stranger == t) ++stranger;
  return {RYEBADGER_EDGE_SHARED, e, stranger};
}

// The fan of the lowest corner is marked, round to where it started, or to a border and then the other way.
Clause fan_clause(const Cage& cage, uint32_t v) {
  const std::vector<uint32_t>& twin = cage.twin;
  const uint32_t lowest = uint32_t(std::find(cage.vert.begin(), cage.vert.end(), v) - cage.vert.begin());
  bool joined[kMost] = {};
  uint32_t h = lowest;
  do joined[h] = true, h = twin[prev(h)];
  while (h != kNoTwin && h != lowest);
  if (h == kNoTwin)
    for (uint32_t t = twin[lowest]; t != kNoTwin; t = twin[h]) h = next(t), joined[h] = true;
  uint32_t other = lowest;
  while (cage.vert[other] != v || joined[other]) ++other;
  return {RYEBADGER_NOT_JOINED, lowest, other};
}

Clause clause(const Cage& cage, Verdict verdict, Counts counts) {
  switch (verdict.number) {
    case RYEBADGER_TWIN:
      return twin_clause(cage, verdict.place);
    case RYEBADGER_VERTEX:
      return vertex_clause(cage, verdict.place);
    case RYEBADGER_UNUSED:
      return {RYEBADGER_VERTEX_UNUSED, verdict.place};
    case RYEBADGER_EDGE:
      return edge_clause(cage, verdict.place, counts.edges);
    case RYEBADGER_FAN:
      return fan_clause(cage, verdict.place);
    default:
      return {};
  }
}

}  // namespace

Why why_by_hand(const Cage& cage) {
  Counts counts{};
  const Verdict verdict = check(cage, counts);
  const auto [number, x, y, z] = clause(cage, verdict, counts);
  return {verdict.number, verdict.place, number, x, y, z};
}
