// The library's own four passes, by hand, the spokes triangle by triangle. The sums are cleared; each triangle's spokes are added to
// them; they become places; and the last of them makes the edges' points and puts the border's vertices where they belong. What
// creases inside change is put over that, as in the library; here they are listed and not looked for.
#include "by_hand.h"
#include "engines.h"

namespace {

void add_spokes(const Level& old, int32_t* __restrict sums) {
  const uint32_t* __restrict vert = old.vert;
  const int32_t* __restrict points = old.points;
  for (uint32_t h = 0; h < old.counts.halfedges; h += 3) {
    const uint32_t a = vert[h], b = vert[h + 1], c = vert[h + 2];
    add(sums, a, load(points, b));
    add(sums, b, load(points, c));
    add(sums, c, load(points, a));
  }
}

// Where the next level's points of vertices and of edges stand.
struct Fresh {
  int32_t *vertices, *edges;
};

// Halfedge h from vertex a to vertex b, at p and q, with the opposite corner at r.
inline void put_edge(const Level& old, Fresh fresh, uint32_t h, uint32_t a, uint32_t b, Point p, Point q, Point r) {
  if (old.twin[h] != kNoTwin) return add_edge(fresh.edges, old.edge[h], old.twin[h] < h, p, q, r);
  store(fresh.edges, old.edge[h], rounded_shift(p + q, 1));
  meet(fresh.vertices, a, p, q);
  meet(fresh.vertices, b, q, p);
}

// A triangle with a border edge.
void put_border_triangle(const Level& old, Fresh fresh, uint32_t h, Point p, Point q, Point r) {
  const uint32_t a = old.vert[h], b = old.vert[h + 1], c = old.vert[h + 2];
  put_edge(old, fresh, h, a, b, p, q, r);
  put_edge(old, fresh, h + 1, b, c, q, r, p);
  put_edge(old, fresh, h + 2, c, a, r, p, q);
}

void write_edges(const Level& old, Fresh fresh) {
  const uint32_t* __restrict twin = old.twin, * __restrict vert = old.vert, * __restrict edge = old.edge;
  const int32_t* __restrict points = old.points;
  int32_t* __restrict edges = fresh.edges;
  for (uint32_t h = 0; h < old.counts.halfedges; h += 3) {
    const uint32_t s = twin[h], t = twin[h + 1], u = twin[h + 2];
    const Point p = load(points, vert[h]), q = load(points, vert[h + 1]), r = load(points, vert[h + 2]);
    if (s == kNoTwin || t == kNoTwin || u == kNoTwin) {
      put_border_triangle(old, fresh, h, p, q, r);
      continue;
    }
    add_edge(edges, edge[h], s < h, p, q, r);
    add_edge(edges, edge[h + 1], t < h + 1, q, r, p);
    add_edge(edges, edge[h + 2], u < h + 2, r, p, q);
  }
}

}  // namespace

void refine_in_passes(const Cage& cage, int depth, Weight weight, Tables& lent) {
  const std::vector<uint32_t> corners = count_corners(cage);
  refine_above(cage, depth, weight, lent, [&](const Level& old, int32_t* vertex_points, int32_t* edge_points) {
    add_spokes(old, vertex_points);
    settle(weight, corners, old.points, vertex_points, 3 * size_t(old.counts.vertices));
    write_edges(old, {vertex_points, edge_points});
  });
}
