// Tuned by hand: the points in one pass that scatters each triangle's contributions, or those of the four triangles that one
// triangle became, which share three edges and most corners. The border halfedges are listed.
#include "by_hand.h"
#include "engines.h"

namespace {

void scatter(const Level& old, int32_t* __restrict sums, int32_t* __restrict edge_points) {
  const uint32_t* __restrict twin = old.twin, * __restrict vert = old.vert, * __restrict edge = old.edge;
  const int32_t* __restrict points = old.points;
  for (uint32_t h = 0; h < old.counts.halfedges; h += 3) {
    const Point a = load(points, vert[h]), b = load(points, vert[h + 1]), c = load(points, vert[h + 2]);
    add(sums, vert[h], b);
    add(sums, vert[h + 1], c);
    add(sums, vert[h + 2], a);
    add_edge(edge_points, edge[h], twin[h] < h, a, b, c);
    add_edge(edge_points, edge[h + 1], twin[h + 1] < h + 1, b, c, a);
    add_edge(edge_points, edge[h + 2], twin[h + 2] < h + 2, c, a, b);
  }
}

// By fours: three triangles at corners of the old one, and the one between them.
void scatter_fours(const Level& old, int32_t* __restrict sums, int32_t* __restrict edge_points) {
  const uint32_t* __restrict twin = old.twin, * __restrict vert = old.vert, * __restrict edge = old.edge;
  const int32_t* __restrict points = old.points;
  // the corner v, with l, m and n the points of the old edges before it, after it and opposite
  const auto corner = [=](uint32_t h, Point v, Point l, Point m, Point n) {
    add(sums, vert[h], m);
    add(sums, vert[h + 2], v + m + n);
    store(edge_points, edge[h + 1], rounded_shift((l + m) * 3 + v + n, 3));
    add_edge(edge_points, edge[h], twin[h] < h, v, m, l);
    add_edge(edge_points, edge[h + 2], twin[h + 2] < h + 2, l, v, m);
  };
  for (uint32_t h = 0; h < old.counts.halfedges / 4 * 3; h += 9) {
    const Point a = load(points, vert[h + 1]), b = load(points, vert[h + 4]), c = load(points, vert[h + 7]);
    corner(h, load(points, vert[h]), c, a, b);
    corner(h + 3, load(points, vert[h + 3]), a, b, c);
    corner(h + 6, load(points, vert[h + 6]), b, c, a);
  }
}

// What stays known of a cage: each vertex's corners, and the border halfedges of the level reached.
struct Known {
  std::vector<uint32_t> corners, border;

  explicit Known(const Cage& cage) : corners(count_corners(cage)) {
    for (uint32_t h = 0; h < cage.twin.size(); ++h)
      if (cage.twin[h] == kNoTwin) border.push_back(h);
  }

  // A border halfedge h gives 3h and 3·NEXT(h)+2.
  void refine_border() {
    const size_t count = border.size();
    for (size_t i = 0; i < count; ++i) {
      border.push_back(3 * next(border[i]) + 2);
      border[i] *= 3;
    }
  }

  // The border is short beside the level, so it comes last, over what the triangles left there.
  void put_border(const Level& old, int32_t* vertex_points, int32_t* edge_points) const {
    for (uint32_t h : border) {
      const Point a = load(old.points, old.vert[h]), b = load(old.points, old.vert[next(h)]);
      store(edge_points, old.edge[h], rounded_shift(a + b, 1));
      store(vertex_points, old.vert[h], a * 6 + b);
    }
    for (uint32_t h : border) {
      const uint32_t v = old.vert[next(h)];
      store(vertex_points, v, rounded_shift(load(vertex_points, v) + load(old.points, old.vert[h]), 3));
    }
  }
};

template <class Scatter>
void refine(const Cage& cage, int depth, Weight weight, Tables& lent, Scatter scatter_all) {
  Known known(cage);
  refine_above(cage, depth, weight, lent, [&](const Level& old, int32_t* vertex_points, int32_t* edge_points) {
    known.refine_border();
    scatter_all(old, vertex_points, edge_points);
    settle(weight, known.corners, old.points, vertex_points, 3 * size_t(old.counts.vertices));
    known.put_border(old, vertex_points, edge_points);
  });
}

}  // namespace

void refine_tuned(const Cage& cage, int depth, Weight weight, Tables& lent) { refine(cage, depth, weight, lent, scatter); }

void refine_by_fours(const Cage& cage, int depth, Weight weight, Tables& lent) {
  refine(cage, depth, weight, lent, scatter_fours);
}
