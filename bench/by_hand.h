// What the engines tuned by hand share: the tables, a table at a time and a triangle at a time, points of 32 bits, what they do
// for a level's points alike, and creases. They do the levels above the cage, where more is known of each row. The cage itself,
// a small part of the work, is left to the plain engine.
#pragma once

#include <cstring>
#include <utility>

#include "levels.h"
#include "rounding.h"

struct Three {
  uint32_t a, b, c;
};

inline Three from(uint32_t m, uint32_t step = 1) { return {m, m + step, m + 2 * step}; }

// A triangle's cells in rows 3h, 3h+1, 3h+2 and 3H+h of one table. Its old cells are all read before these are written.
inline void put(uint32_t* __restrict fresh, uint32_t halfedges, uint32_t h, Three first, Three second, Three third,
                Three fourth) {
  uint32_t *corner = fresh + 3 * h, *middle = fresh + 3 * halfedges + h;
  corner[0] = first.a, corner[1] = second.a, corner[2] = third.a;
  corner[3] = first.b, corner[4] = second.b, corner[5] = third.b;
  corner[6] = first.c, corner[7] = second.c, corner[8] = third.c;
  middle[0] = fourth.a, middle[1] = fourth.b, middle[2] = fourth.c;
}

// The twin in row 3h, 3·NEXT(t)+2 of a twin whose residue by 3 is known, so that NEXT needs no division.
inline uint32_t outer(uint32_t t, uint32_t residue) { return t == kNoTwin ? t : 3 * t + (residue == 2 ? -4 : 5); }

// The twin in row 3h+2, 3·t.
inline uint32_t inner(uint32_t t) { return t == kNoTwin ? t : 3 * t; }

inline void put_twins(uint32_t* __restrict fresh, uint32_t halfedges, uint32_t h, Three outers, Three inners) {
  put(fresh, halfedges, h, outers, from(3 * halfedges + h), {inners.c, inners.a, inners.b}, from(3 * h + 1, 3));
}

// Twins in rows 3h and 3h+2 leave 2 and 0 by 3, and those in the other two rows are known.
inline void next_twins(const uint32_t* __restrict twin, uint32_t* __restrict fresh, uint32_t halfedges) {
  const uint32_t middle = halfedges / 4 * 3;
  const auto corner = [=](uint32_t h, uint32_t b, uint32_t residue) {
    const uint32_t a = twin[h], c = twin[h + 2];
    put_twins(fresh, halfedges, h, {outer(a, 2), outer(b, residue), outer(c, 0)}, {inner(a), 3 * b, inner(c)});
  };
  for (uint32_t h = 0, b = middle; h < middle; h += 9, b += 3)
    corner(h, b, 0), corner(h + 3, b + 1, 1), corner(h + 6, b + 2, 2);
  for (uint32_t h = middle, t = 1; h < halfedges; h += 3, t += 9)
    put_twins(fresh, halfedges, h, from(3 * t + 5, 9), from(3 * t, 9));
}

inline void next_verts(const uint32_t* __restrict vert, const uint32_t* __restrict edge, uint32_t* __restrict fresh, Counts n) {
  for (uint32_t h = 0; h < n.halfedges; h += 3) {
    const uint32_t a = n.vertices + edge[h], b = n.vertices + edge[h + 1], c = n.vertices + edge[h + 2];
    put(fresh, n.halfedges, h, {vert[h], vert[h + 1], vert[h + 2]}, {a, b, c}, {c, a, b}, {c, a, b});
  }
}

inline void put_edges(uint32_t* __restrict fresh, Counts n, uint32_t h, Three edge, Three above) {
  const uint32_t a = 2 * edge.a, b = 2 * edge.b, c = 2 * edge.c;
  const Three across = from(2 * n.edges + h);
  put(fresh, n.halfedges, h, {a + 1 - above.a, b + 1 - above.b, c + 1 - above.c}, across,
      {c + above.c, a + above.a, b + above.b}, across);
}

// h > t: the marker, as a signed number, is lower than every halfedge.
inline uint32_t above(uint32_t h, uint32_t t) { return int32_t(h) > int32_t(t); }

// Rows 3h+1 and 3H+h are twins, the second one the higher.
inline void next_edges(const uint32_t* __restrict twin, const uint32_t* __restrict edge, uint32_t* __restrict fresh, Counts n) {
  const uint32_t middle = n.halfedges / 4 * 3;
  for (uint32_t h = 0; h < middle; h += 3)
    put_edges(fresh, n, h, {edge[h], edge[h + 1], edge[h + 2]}, {above(h, twin[h]), 0, above(h + 2, twin[h + 2])});
  for (uint32_t h = middle; h < n.halfedges; h += 3) put_edges(fresh, n, h, from(edge[h]), {1, 1, 1});
}

// A point, or a numerator: 32 bits are enough but for a cage vertex, whose number of corners may be large.
struct Point {
  int32_t x, y, z;

  Point operator+(Point o) const { return {x + o.x, y + o.y, z + o.z}; }
  Point operator*(int32_t k) const { return {x * k, y * k, z * k}; }
};

inline Point rounded_shift(Point p, int bits) {
  return {rounded_shift(p.x, bits), rounded_shift(p.y, bits), rounded_shift(p.z, bits)};
}

// The index is widened first, so that the three cells are loaded and stored by one address.
inline Point load(const int32_t* points, size_t v) {
  const int32_t* at = points + 3 * v;
  return {at[0], at[1], at[2]};
}

inline void store(int32_t* points, size_t v, Point p) {
  int32_t* at = points + 3 * v;
  at[0] = p.x, at[1] = p.y, at[2] = p.z;
}

inline void add(int32_t* sums, uint32_t v, Point p) { store(sums, v, load(sums, v) + p); }

inline int32_t short_place(int64_t corners, int64_t vertex, int64_t sum) {
  return rounded(5 * corners * vertex + 3 * sum, 8 * corners);
}

inline int32_t paper_place(int64_t corners, int64_t vertex, int64_t sum) {
  const int64_t w = kPaperTable[corners];
  return int32_t(rounded_shift((kParts - corners * w) * vertex + w * sum, 24));
}

// A border vertex may have one corner, or more than the table has. Its place here is not its own, and only has to be in range.
inline int32_t place_of(Weight weight, uint32_t corners, int32_t vertex, int32_t sum) {
  const bool in_table = corners >= 2 && corners <= kMostCorners;
  return weight == Weight::kPaper && in_table ? paper_place(corners, vertex, sum) : short_place(corners, vertex, sum);
}

// Each vertex's corners, which a cage's vertices keep.
inline std::vector<uint32_t> count_corners(const Cage& cage) {
  std::vector<uint32_t> corners(cage.points.size() / 3);
  for (uint32_t v : cage.vert) ++corners[v];
  return corners;
}

// Sums become places as if no vertex lay on the border. Those added to the cage have six corners, where both weights are 1/16.
inline void settle(Weight weight, const std::vector<uint32_t>& corners, const int32_t* __restrict points,
                   int32_t* __restrict sums, size_t cells) {
  const size_t own = 3 * corners.size();
  for (size_t i = 0; i < own; ++i) sums[i] = place_of(weight, corners[i / 3], points[i], sums[i]);
  for (size_t i = own; i < cells; ++i) sums[i] = rounded_shift(10 * points[i] + sums[i], 4);
}

// What 6v+a is raised by while a vertex on two creases waits for its second neighbour: no place is above 2^20.
constexpr int32_t kMostCoordinate = 1 << 20, kMark = 1 << 30;

inline int32_t met(int32_t now, int32_t v, int32_t a) {
  return now <= kMostCoordinate ? 6 * v + a + kMark : rounded_shift(now - kMark + a, 3);
}

// Vertex v, at p, meets its neighbour at q.
inline void meet(int32_t* vertex_points, uint32_t v, Point p, Point q) {
  const Point now = load(vertex_points, v);
  store(vertex_points, v, {met(now.x, p.x, q.x), met(now.y, p.y, q.y), met(now.z, p.z, q.z)});
}

// The creases inside a level, each by one of its halfedges. They are few beside its edges, so they are listed, and followed from
// one level to the next. A vertex that was added to the cage has two creases or none: only at the cage's own they are counted.
class Creases {
 public:
  explicit Creases(const Cage& cage) : borders(cage.points.size() / 3) {
    for (uint32_t h = 0; h < cage.twin.size(); ++h) {
      if (cage.twin[h] == kNoTwin) borders[cage.vert[h]] = 2;
      if (cage.twin[h] < h && cage.creases[cage.edge[h]] > 0) listed.push_back({h, cage.creases[cage.edge[h]]});
    }
  }

  // Halfedge h of a crease gives 3h and 3·NEXT(h)+2, as long as its number lasts.
  void refine() {
    std::vector<Crease> finer;
    for (const Crease& crease : listed)
      if (crease.number > 1)
        for (uint32_t h : {3 * crease.halfedge, 3 * next(crease.halfedge) + 2}) finer.push_back({h, crease.number - 1});
    listed = std::move(finer);
  }

  // The next level's table, nearly all 0.
  void put_numbers(const Level& old, uint8_t* fresh) const {
    std::memset(fresh, 0, old.counts.finer().edges);
    for (const Crease& crease : listed) std::memset(fresh + 2 * old.edge[crease.halfedge], crease.number - 1, 2);
  }

  // Over what is there as if no edge inside were a crease.
  void put_points(const Level& old, int32_t* vertex_points, int32_t* edge_points) const {
    if (listed.empty()) return;
    std::vector<uint32_t> count = borders;
    each_end(old, [&](uint32_t v, uint32_t) {
      if (v < count.size()) ++count[v];
    });
    each_end(old, [&](uint32_t v, uint32_t w) {
      if (v >= count.size() || count[v] == 2) meet(vertex_points, v, load(old.points, v), load(old.points, w));
    });
    for (uint32_t v = 0; v < count.size(); ++v)
      if (count[v] > 2) store(vertex_points, v, load(old.points, v));
    for (const Crease& crease : listed) {
      const uint32_t h = crease.halfedge;
      store(edge_points, old.edge[h], rounded_shift(load(old.points, old.vert[h]) + load(old.points, old.vert[next(h)]), 1));
    }
  }

 private:
  struct Crease {
    uint32_t halfedge;
    int number;
  };
  std::vector<uint32_t> borders;  // how many border edges each vertex of the cage has
  std::vector<Crease> listed;

  // Calls with each end of each crease and with the end opposite to it.
  template <class Call>
  void each_end(const Level& old, Call call) const {
    for (const Crease& crease : listed) {
      const uint32_t a = old.vert[crease.halfedge], b = old.vert[next(crease.halfedge)];
      call(a, b), call(b, a);
    }
  }
};

// An edge's cells hold 3a+3b+c from its lower halfedge until the higher one brings d.
inline void add_edge(int32_t* edge_points, uint32_t e, bool higher, Point a, Point b, Point c) {
  if (higher)
    store(edge_points, e, rounded_shift(load(edge_points, e) + c, 3));
  else
    store(edge_points, e, (a + b) * 3 + c);
}

// All levels, with put_points(level, vertex points, edge points) for the points of the next one, as if no edge inside were a
// crease. It finds the first made 0.
template <class PutPoints>
void refine_above(const Cage& cage, int depth, Weight weight, Tables& lent, PutPoints put_points) {
  Creases creases(cage);
  each_level(cage, depth, lent, [&](const Level& old, const Room& fresh) {
    const Counts n = old.counts;
    if (n.halfedges == cage.twin.size()) return next_plain(old, weight, fresh);
    next_twins(old.twin, fresh.twin, n.halfedges);
    next_verts(old.vert, old.edge, fresh.vert, n);
    next_edges(old.twin, old.edge, fresh.edge, n);
    creases.refine();
    creases.put_numbers(old, fresh.creases);
    const size_t cells = 3 * size_t(n.vertices);
    std::memset(fresh.points, 0, cells * sizeof(int32_t));
    put_points(old, fresh.points, fresh.points + cells);
    creases.put_points(old, fresh.points, fresh.points + cells);
  });
}
