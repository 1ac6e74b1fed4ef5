// A plain reading of the paper: a loop over halfedges by the four rows, and each vertex's point by walking its fan.
#include "engines.h"
#include "levels.h"
#include "rounding.h"

namespace {

void next_tables(const Level& old, const Room& fresh) {
  const auto [halfedges, edges, vertices] = old.counts;
  for (uint32_t h = 0; h < halfedges; ++h) {
    const uint32_t p = prev(h), t = old.twin[h], tp = old.twin[p], e = old.edge[h], ep = old.edge[p];
    const uint32_t middle = 3 * halfedges + h;
    fresh.twin[3 * h] = t == kNoTwin ? kNoTwin : 3 * next(t) + 2;
    fresh.twin[3 * h + 1] = middle;
    fresh.twin[3 * h + 2] = tp == kNoTwin ? kNoTwin : 3 * tp;
    fresh.twin[middle] = 3 * h + 1;
    fresh.edge[3 * h] = 2 * e + (t == kNoTwin || h > t ? 0 : 1);
    fresh.edge[3 * h + 1] = 2 * edges + h;
    fresh.edge[3 * h + 2] = 2 * ep + (tp == kNoTwin || p > tp ? 1 : 0);
    fresh.edge[middle] = 2 * edges + h;
    fresh.vert[3 * h] = old.vert[h];
    fresh.vert[3 * h + 1] = vertices + e;
    fresh.vert[3 * h + 2] = vertices + ep;
    fresh.vert[middle] = vertices + ep;
  }
}

// The halves of an edge carry its number less one, never below 0; the edges across a triangle, which come last, carry 0.
void next_creases(const Level& old, uint8_t* fresh) {
  const uint32_t edges = old.counts.edges;
  for (uint32_t e = 0; e < edges; ++e) fresh[2 * e] = fresh[2 * e + 1] = std::max<uint8_t>(old.creases[e], 1) - 1;
  std::fill_n(fresh + 2 * edges, old.counts.halfedges, 0);
}

// Whether an edge is a crease. Most levels have none inside, and are asked once for all.
struct Sharp {
  const Level& old;
  bool inside;

  explicit Sharp(const Level& level)
      : old(level), inside(std::any_of(old.creases, old.creases + old.counts.edges, [](uint8_t number) { return number > 0; })) {}

  bool operator()(uint32_t h) const { return old.twin[h] == kNoTwin || (inside && old.creases[old.edge[h]] > 0); }
};

// E.1 and E.2, at the lower halfedge of each edge.
void edge_points(const Level& old, const Sharp& sharp, int32_t* fresh) {
  for (uint32_t h = 0; h < old.counts.halfedges; ++h) {
    const uint32_t t = old.twin[h];
    if (t < h) continue;
    const int32_t* a = &old.points[3 * old.vert[h]];
    const int32_t* b = &old.points[3 * old.vert[next(h)]];
    int32_t* to = &fresh[3 * (old.counts.vertices + old.edge[h])];
    if (sharp(h)) {
      for (int k = 0; k < 3; ++k) to[k] = rounded(int64_t(a[k]) + b[k], 2);
      continue;
    }
    const int32_t* c = &old.points[3 * old.vert[prev(h)]];
    const int32_t* d = &old.points[3 * old.vert[prev(t)]];
    for (int k = 0; k < 3; ++k) to[k] = rounded(3 * int64_t(a[k]) + 3 * int64_t(b[k]) + c[k] + d[k], 8);
  }
}

// V.3 of one coordinate of a vertex of n corners, s the sum over its spokes' far ends.
int32_t inner_place(Weight weight, int64_t n, int64_t v, int64_t s) {
  if (weight == Weight::kShort) return rounded(5 * n * v + 3 * s, 8 * n);
  const int64_t w = kPaperTable[n];
  return rounded((kParts - n * w) * v + w * s, kParts);
}

// Points added up.
struct Ends {
  const Level& old;
  int64_t count = 0, sum[3] = {0, 0, 0};

  void add(uint32_t v) {
    ++count;
    for (int k = 0; k < 3; ++k) sum[k] += old.points[3 * v + k];
  }
};

// V.2, V.3 or the old place of the vertex that a halfedge leaves.
void vertex_point(const Level& old, const Sharp& sharp, Weight weight, uint32_t start, int32_t* fresh) {
  Ends spokes{old}, creases{old};
  const auto add = [&](uint32_t h, uint32_t far_end) {
    spokes.add(far_end);
    if (sharp(h)) creases.add(far_end);
  };
  // One way round, and where that ends at the border from the start the other way.
  uint32_t h = start, last = start;
  do {
    add(h, old.vert[next(h)]);
    last = h;
    h = old.twin[prev(h)];
  } while (h != start && h != kNoTwin);
  if (h == kNoTwin) {
    add(prev(last), old.vert[prev(last)]);
    for (h = start; old.twin[h] != kNoTwin;) h = next(old.twin[h]), add(h, old.vert[next(h)]);
  }
  const int32_t* v = &old.points[3 * old.vert[start]];
  int32_t* to = &fresh[3 * old.vert[start]];
  for (int k = 0; k < 3; ++k)
    to[k] = creases.count > 2    ? v[k]
            : creases.count == 2 ? rounded(6 * int64_t(v[k]) + creases.sum[k], 8)
                                 : inner_place(weight, spokes.count, v[k], spokes.sum[k]);
}

void vertex_points(const Level& old, const Sharp& sharp, Weight weight, int32_t* fresh) {
  std::vector<uint32_t> leaving(old.counts.vertices);
  for (uint32_t h = 0; h < old.counts.halfedges; ++h) leaving[old.vert[h]] = h;
  for (uint32_t start : leaving) vertex_point(old, sharp, weight, start, fresh);
}

}  // namespace

void next_plain(const Level& old, Weight weight, const Room& fresh) {
  const Sharp sharp(old);
  next_tables(old, fresh);
  next_creases(old, fresh.creases);
  edge_points(old, sharp, fresh.points);
  vertex_points(old, sharp, weight, fresh.points);
}

void refine_plain(const Cage& cage, int depth, Weight weight, Tables& lent) {
  each_level(cage, depth, lent, [=](const Level& old, const Room& fresh) { next_plain(old, weight, fresh); });
}
