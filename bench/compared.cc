#include "compared.h"

#include <algorithm>
#include <cmath>
#include <cstdio>
#include <stdexcept>

#include "engines.h"
#include "library.h"

Tables compared(const Cage& cage, Weight weight) {
  Tables levels = lent_tables(cage.counts()), lent = levels;
  fill(levels);
  library_refine(cage, kDepth, weight, levels);
  for (const auto refine : {refine_plain, refine_in_passes, refine_tuned, refine_by_fours}) {
    fill(lent);
    refine(cage, kDepth, weight, lent);
    if (!(lent == levels)) throw std::runtime_error("an engine's cells differ from the library's");
  }
  return levels;
}

#ifdef HAVE_OPENSUBDIV
void print_distance_heads() {
  std::printf("points of level %d, how far from OpenSubdiv's and what rounding explains at most, in 1/1024 mm\n", kDepth);
  std::printf("  %-36s %10s %10s %10s\n", "", "distance", "of points", "of weights");
}

// All rules take averages, so each level adds to a coordinate at most the half unit of its own rounding, and at a vertex what
// its weight is off the formula, half a part at most, times the way from the vertex to the end of each spoke.
void print_distance(const std::string& name, const Cage& cage, uint32_t most_corners) {
  const auto [low, high] = std::minmax_element(cage.points.begin(), cage.points.end());
  const double off = most_corners * (double(*high) - *low) / (2 * kParts), of_levels = std::sqrt(3) * kDepth;
  const double of_points = of_levels / 2, of_weights = of_levels * off;
  const double distance = distance_to_opensubdiv(cage, kDepth, compared(cage, Weight::kPaper));
  std::printf("  %-36s %10.2f %10.2f %10.2f\n", name.c_str(), distance, of_points, of_weights);
  if (distance > of_points + of_weights)
    throw std::runtime_error("the points differ from OpenSubdiv's by more than rounding");
}
#endif
