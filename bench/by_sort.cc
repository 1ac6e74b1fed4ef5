// Building with std::sort: the halfedges by the two vertices that they join, so that twins and doubles stand side by side.
#include "building.h"
#include "joined.h"

namespace {

struct Joining {
  uint64_t ends;  // the lower vertex, then the higher one
  uint32_t halfedge;
  bool back;  // from the higher vertex to the lower
};

// The halfedges that join the same two vertices: two are twins, unless one way has more than one.
uint32_t join_run(const Joining* run, const Joining* end, uint32_t* twin) {
  uint32_t lowest[2] = {kNoTwin, kNoTwin}, count[2] = {0, 0};
  for (const Joining* at = run; at != end; ++at) {
    lowest[at->back] = std::min(lowest[at->back], at->halfedge);
    ++count[at->back];
  }
  for (int way : {0, 1})
    if (lowest[way] != kNoTwin) twin[lowest[way]] = lowest[!way];
  return std::min(count[0] > 1 ? lowest[0] : kNoTwin, count[1] > 1 ? lowest[1] : kNoTwin);
}

}  // namespace

Answer build_by_sort(const Soup& soup, Joins& lent) {
  return build_with(soup, lent, [](const std::vector<uint32_t>& vert, uint32_t* twin) {
    Joining all[kMost];
    const Joining* end = all + vert.size();
    for (uint32_t h = 0; h < vert.size(); ++h) {
      const uint32_t from = vert[h], to = vert[next(h)];
      all[h] = {uint64_t(std::min(from, to)) << 32 | std::max(from, to), h, from > to};
    }
    std::sort(all, all + vert.size(), [](const Joining& a, const Joining& b) { return a.ends < b.ends; });
    uint32_t doubled = kNoTwin;
    for (const Joining *run = all, *past = all; run != end; run = past) {
      while (past != end && past->ends == run->ends) ++past;
      doubled = std::min(doubled, join_run(run, past, twin));
    }
    return doubled;
  });
}
