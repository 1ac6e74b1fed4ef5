// Building with std::unordered_map: an entry for every two vertices that are joined, with the halfedge of either way.
#include <memory_resource>
#include <unordered_map>

#include "building.h"
#include "joined.h"

namespace {

struct Ways {
  uint32_t halfedge[2] = {kNoTwin, kNoTwin};
};

// Fills TWIN from an empty map, and gives the lowest halfedge that has a double, or kNoTwin.
template <class Map>
uint32_t join(Map& joining, const std::vector<uint32_t>& vert, uint32_t* twin) {
  joining.reserve(vert.size());
  uint32_t doubled = kNoTwin;
  for (uint32_t h = 0; h < vert.size(); ++h) {
    const uint32_t from = vert[h], to = vert[next(h)];
    const bool back = from > to;
    Ways& ways = joining[uint64_t(back ? to : from) << 32 | (back ? from : to)];
    const uint32_t same = ways.halfedge[back], opposite = ways.halfedge[!back];
    if (same != kNoTwin) {
      doubled = std::min(doubled, same);
      continue;
    }
    ways.halfedge[back] = h;
    twin[h] = opposite;
    if (opposite != kNoTwin) twin[opposite] = h;
  }
  return doubled;
}

}  // namespace

Answer build_by_map(const Soup& soup, Joins& lent) {
  return build_with(soup, lent, [](const std::vector<uint32_t>& vert, uint32_t* twin) {
    thread_local std::unordered_map<uint64_t, Ways> joining;
    joining.clear();
    return join(joining, vert, twin);
  });
}

Answer build_by_map_in_buffer(const Soup& soup, Joins& lent) {
  return build_with(soup, lent, [](const std::vector<uint32_t>& vert, uint32_t* twin) {
    thread_local std::array<char, 64 * kMost> buffer;
    std::pmr::monotonic_buffer_resource resource(buffer.data(), buffer.size());
    std::pmr::unordered_map<uint64_t, Ways> joining(&resource);
    return join(joining, vert, twin);
  });
}
