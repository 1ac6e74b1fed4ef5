// OpenSubdiv: uniform refinement with the topology of all levels, and the points interpolated level by level.
#include <opensubdiv/far/primvarRefiner.h>
#include <opensubdiv/far/topologyDescriptor.h>
#include <opensubdiv/far/topologyRefinerFactory.h>

#include <algorithm>
#include <cmath>
#include <memory>
#include <stdexcept>

#include "clock.h"
#include "engines.h"

namespace {

using namespace OpenSubdiv;
using Refiner = std::unique_ptr<Far::TopologyRefiner>;

template <class Real>
struct Point {
  Real x, y, z;

  void Clear() { x = y = z = 0; }
  void AddWithWeight(const Point& p, Real weight) { x += weight * p.x, y += weight * p.y, z += weight * p.z; }
};

// The creases inside: two vertices of each, and the sharpness.
struct Creases {
  std::vector<int> ends;
  std::vector<float> sharpness;

  explicit Creases(const Cage& cage) {
    for (uint32_t h = 0; h < cage.twin.size(); ++h) {
      const uint8_t number = cage.creases[cage.edge[h]];
      if (cage.twin[h] > h || number == 0) continue;
      ends.insert(ends.end(), {int(cage.vert[h]), int(cage.vert[next(h)])});
      sharpness.push_back(number);
    }
  }
};

Refiner refiner_of(const Cage& cage) {
  const std::vector<int> corners(cage.vert.begin(), cage.vert.end()), three(cage.vert.size() / 3, 3);
  const Creases creases(cage);
  Far::TopologyDescriptor descriptor;
  descriptor.numVertices = int(cage.points.size() / 3);
  descriptor.numFaces = int(three.size());
  descriptor.numVertsPerFace = three.data();
  descriptor.vertIndicesPerFace = corners.data();
  descriptor.numCreases = int(creases.sharpness.size());
  descriptor.creaseVertexIndexPairs = creases.ends.data();
  descriptor.creaseWeights = creases.sharpness.data();
  Sdc::Options options;
  options.SetCreasingMethod(Sdc::Options::CREASE_UNIFORM);
  options.SetVtxBoundaryInterpolation(Sdc::Options::VTX_BOUNDARY_EDGE_ONLY);
  using Factory = Far::TopologyRefinerFactory<Far::TopologyDescriptor>;
  return Refiner(Factory::Create(descriptor, Factory::Options(Sdc::SCHEME_LOOP, options)));
}

void refine_topology(Far::TopologyRefiner& refiner, int depth) {
  Far::TopologyRefiner::UniformOptions options(depth);
  options.fullTopologyInLastLevel = true;
  refiner.RefineUniform(options);
}

// The points of all levels end to end.
template <class Real>
std::vector<Point<Real>> points_of(const Far::TopologyRefiner& refiner, const Cage& cage) {
  std::vector<Point<Real>> points(refiner.GetNumVerticesTotal());
  for (size_t v = 0; v < cage.points.size() / 3; ++v)
    points[v] = {Real(cage.points[3 * v]), Real(cage.points[3 * v + 1]), Real(cage.points[3 * v + 2])};
  const Far::PrimvarRefinerReal<Real> primvars(refiner);
  Point<Real>* from = points.data();
  for (int level = 1; level <= refiner.GetMaxLevel(); ++level) {
    Point<Real>* to = from + refiner.GetLevel(level - 1).GetNumVertices();
    primvars.Interpolate(level, from, to);
    from = to;
  }
  return points;
}

// OpenSubdiv's number of each of our vertices, one level on. Old vertices keep their number with us, and edge e's is V+e.
std::vector<int> next_numbers(const std::vector<int>& numbers, const Far::TopologyLevel& level, const Counts& counts,
                              const uint32_t* vert, const uint32_t* edge) {
  std::vector<int> finer(counts.finer().vertices, -1);
  for (uint32_t v = 0; v < counts.vertices; ++v) finer[v] = level.GetVertexChildVertex(numbers[v]);
  for (uint32_t h = 0; h < counts.halfedges; ++h) {
    const int number = level.FindEdge(numbers[vert[h]], numbers[vert[next(h)]]);
    if (number < 0) throw std::runtime_error("OpenSubdiv lacks an edge of ours");
    finer[counts.vertices + edge[h]] = level.GetEdgeChildVertex(number);
  }
  return finer;
}

}  // namespace

Foreign refine_opensubdiv(const Cage& cage, int depth) {
  const Refiner refiner = refiner_of(cage);
  std::vector<Point<float>> points;
  const double time = seconds([&] {
    refine_topology(*refiner, depth);
    points = points_of<float>(*refiner, cage);
  });
  const Far::TopologyLevel last = refiner->GetLevel(depth);
  return {time, size_t(last.GetNumFaces()), size_t(last.GetNumVertices())};
}

double distance_to_opensubdiv(const Cage& cage, int depth, const Tables& levels) {
  const Refiner refiner = refiner_of(cage);
  refine_topology(*refiner, depth);
  const auto points = points_of<double>(*refiner, cage);
  Counts counts = cage.counts();
  std::vector<int> numbers(counts.vertices);
  for (uint32_t v = 0; v < counts.vertices; ++v) numbers[v] = int(v);
  size_t at = 0, point = 0;
  for (int level = 0; level < depth; ++level) {
    numbers = next_numbers(numbers, refiner->GetLevel(level), counts, &levels.vert[at], &levels.edge[at]);
    at += counts.halfedges;
    point += counts.vertices;
    counts = counts.finer();
  }
  double largest = 0;
  for (uint32_t v = 0; v < counts.vertices; ++v) {
    const int32_t* ours = &levels.points[3 * (point + v)];
    const Point<double>& theirs = points[point + numbers[v]];
    largest = std::max(largest, std::hypot(ours[0] - theirs.x, ours[1] - theirs.y, ours[2] - theirs.z));
  }
  return largest;
}
