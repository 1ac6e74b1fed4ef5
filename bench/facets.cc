// Writing STL by hand: facet by facet, each filled where it stands in the file; the same after the library's checks; and
// with every point made floats first, so that a corner is twelve bytes to copy.
#include <algorithm>
#include <cstring>

#include "joined.h"
#include "stl.h"

namespace {

// A facet as it stands in the file.
struct __attribute__((packed)) Facet {
  float normal[3], corners[3][3];
  uint16_t last;
};

static_assert(RYEBADGER_STL_LENGTH(1) == RYEBADGER_STL_LENGTH(0) + sizeof(Facet), "a facet is fifty bytes");

Written done(const Soup& level) { return {RYEBADGER_DONE, 0, uint32_t(RYEBADGER_STL_LENGTH(level.vert.size() / 3))}; }

// Puts the zeros and the count, and gives the first facet.
Facet* put_head(const Soup& level, std::vector<uint8_t>& file) {
  constexpr size_t kCount = 80;
  const uint32_t triangles = uint32_t(level.vert.size() / 3);
  std::memset(file.data(), 0, kCount);
  std::memcpy(&file[kCount], &triangles, sizeof triangles);
  return reinterpret_cast<Facet*>(&file[RYEBADGER_STL_LENGTH(0)]);
}

inline float millimetres(int32_t units) { return float(units) / 1024; }

// The lowest index that has a bad cell, or the length. A block has no way out inside, so that the compiler takes many cells
// at a time.
template <class Cell, class Bad>
size_t first_bad(const std::vector<Cell>& cells, Bad is_bad) {
  constexpr size_t kBlock = 1024;
  size_t at = 0;
  for (; at + kBlock <= cells.size(); at += kBlock) {
    uint32_t bad = 0;
    for (size_t i = 0; i < kBlock; ++i) bad |= is_bad(cells[at + i]);
    if (bad) break;
  }
  while (at < cells.size() && !is_bad(cells[at])) ++at;
  return at;
}

}  // namespace

Written write_facets(const Soup& level, std::vector<uint8_t>& file) {
  const uint32_t* vert = level.vert.data();
  const int32_t* points = level.points.data();
  const size_t halfedges = level.vert.size();
  Facet* facet = put_head(level, file);
  for (size_t h = 0; h < halfedges; h += 3, ++facet) {
    for (int i = 0; i < 3; ++i) facet->normal[i] = 0;
    for (int corner = 0; corner < 3; ++corner) {
      const int32_t* point = points + 3 * size_t(vert[h + corner]);
      for (int i = 0; i < 3; ++i) facet->corners[corner][i] = millimetres(point[i]);
    }
    facet->last = 0;
  }
  return done(level);
}

Written write_checked(const Soup& level, std::vector<uint8_t>& file) {
  const size_t halfedges = level.vert.size();
  const uint32_t vertices = uint32_t(level.points.size() / 3);
  if (halfedges == 0 || halfedges % 3 != 0 || level.points.size() % 3 != 0) return {RYEBADGER_SHAPE, 0};
  if (halfedges > RYEBADGER_LONGEST_TABLE) return {RYEBADGER_LIMIT, 0};
  const size_t past = first_bad(level.vert, [=](uint32_t v) { return v >= vertices; });
  if (past < halfedges) return {RYEBADGER_VERTEX, uint32_t(past)};
  const size_t far = first_bad(level.points, [](int32_t coordinate) { return !in_range(coordinate); });
  if (far < level.points.size()) return {RYEBADGER_POINT, uint32_t(far)};
  if (file.size() < RYEBADGER_STL_LENGTH(halfedges / 3)) return {RYEBADGER_ROOM, 6};
  return write_facets(level, file);
}

// All corner numbers of a triangle are read before anything is written, which the compiler cannot see to by itself.
Written write_from_floats(const Soup& level, std::vector<uint8_t>& file) {
  thread_local std::vector<float> floats;
  floats.resize(level.points.size());
  std::transform(level.points.begin(), level.points.end(), floats.begin(), millimetres);
  const uint32_t* vert = level.vert.data();
  const size_t halfedges = level.vert.size();
  const float* point = floats.data();
  uint8_t* at = reinterpret_cast<uint8_t*>(put_head(level, file));
  for (size_t h = 0; h < halfedges; h += 3, at += sizeof(Facet)) {
    const size_t a = vert[h], b = vert[h + 1], c = vert[h + 2];
    std::memset(at, 0, 12);
    std::memcpy(at + 12, point + 3 * a, 12);
    std::memcpy(at + 24, point + 3 * b, 12);
    std::memcpy(at + 36, point + 3 * c, 12);
    std::memset(at + 48, 0, 2);
  }
  return done(level);
}
