#include "weights.h"

#include <algorithm>
#include <cstdio>
#include <string>

#include "clock.h"
#include "compared.h"
#include "library.h"

namespace {

// Best of the rounds with the short weight and with the paper's, in turn.
std::array<double, 2> best_times(const Cage& cage) {
  Tables lent = lent_tables(cage.counts());
  std::array<double, 2> best{HUGE_VAL, HUGE_VAL};
  for (int round = 0; round < kRounds; ++round)
    for (const Weight weight : {Weight::kShort, Weight::kPaper}) {
      double& time = best[weight == Weight::kPaper];
      time = std::min(time, seconds([&] { library_refine(cage, kDepth, weight, lent); }));
    }
  return best;
}

// Whether the bar is met.
bool print_times(const char* name, const Cage& cage) {
  constexpr double kBar = 1.02;
  compared(cage, Weight::kPaper);
  const auto [short_time, paper_time] = best_times(cage);
  const double ratio = paper_time / short_time;
  const bool pass = ratio <= kBar;
  std::printf("%-38s %10.2f %10.2f %7.3f   at most %.2f: %s\n", name, 1e3 * short_time, 1e3 * paper_time, ratio, kBar,
              pass ? "pass" : "MISS");
  return pass;
}

#ifdef HAVE_OPENSUBDIV
void print_distances() {
  print_distance_heads();
  print_distance("torus, 6 corners", torus(32), 6);
  print_distance("sheet, 6 corners and the border", sheet(32), 6);
  print_distance("crossed torus, 4 and 8 corners", crossed_torus(32), 8);
  for (uint32_t corners : {3, 4, 5, 7, 8, 12})
    print_distance("double pyramid, " + std::to_string(corners) + " and 4 corners", double_pyramid(corners),
                   std::max(corners, 4u));
}
#endif

}  // namespace

bool print_weights() {
  std::printf("\nRefining to depth %d with the paper's weight, best of %d rounds in turn with the short one, process time\n",
              kDepth, kRounds);
  std::printf("%-38s %10s %10s %7s\n", "", "short ms", "paper ms", "ratio");
  const bool closed = print_times("closed cage, a torus", torus(32)), open = print_times("open cage, a sheet", sheet(32)),
             crossed = print_times("closed cage, 4 and 8 corners", crossed_torus(32));
  for (uint32_t corners = 2; corners <= kMostCorners; ++corners) compared(wheel(corners), Weight::kPaper);
  std::printf("every cell of the C++ engines is the library's, here and on wheels of 2 to %u triangles\n", kMostCorners);
#ifdef HAVE_OPENSUBDIV
  print_distances();
#endif
  return closed && open && crossed;
}
