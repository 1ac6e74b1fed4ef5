#include "creases.h"

#include <algorithm>
#include <cmath>
#include <cstdio>
#include <functional>
#include <vector>

#include "clock.h"
#include "compared.h"
#include "engines.h"
#include "library.h"

namespace {

// The numbers from the least to the most.
const std::vector<uint8_t> kMixed = {1, 2, 3, 4, 5, 6, 7, 8, 9, 10};

struct Refiner {
  const char* name;
  std::function<double(const Cage&, Tables&)> run;  // the seconds of one run
};

Refiner timed(const char* name, void (*refine)(const Cage&, int, Weight, Tables&)) {
  return {name, [refine](const Cage& cage, Tables& lent) {
            return seconds([&] { refine(cage, kDepth, Weight::kShort, lent); });
          }};
}

// The library first.
std::vector<Refiner> refiners() {
  return {
      timed("Ryebadger, proved, with its checks", library_refine),
      timed("C++ scattering, in the same passes", refine_in_passes),
      timed("C++ scattering, in one pass", refine_tuned),
      timed("C++ scattering, by four triangles", refine_by_fours),
      timed("C++ plain, walking fans", refine_plain),
#ifdef HAVE_OPENSUBDIV
      {"OpenSubdiv", [](const Cage& cage, Tables&) { return refine_opensubdiv(cage, kDepth).seconds; }},
#endif
  };
}

// Best of the rounds of each on each cage, all in turn.
std::vector<std::vector<double>> best_times(const std::vector<Refiner>& all, const std::vector<Cage>& cages) {
  Tables lent = lent_tables(cages[0].counts());
  std::vector<std::vector<double>> best(all.size(), std::vector<double>(cages.size(), HUGE_VAL));
  for (int round = 0; round < kRounds; ++round)
    for (size_t i = 0; i < all.size(); ++i)
      for (size_t c = 0; c < cages.size(); ++c) best[i][c] = std::min(best[i][c], all[i].run(cages[c], lent));
  return best;
}

// Whether the bar is met.
bool print_times(const char* name, const Cage& plain) {
  constexpr double kBar = 1.13;  // how many times its time without creases the library may take with them
  const std::vector<Cage> cages = {plain, with_creases(plain, {10}), with_creases(plain, kMixed)};
  for (const Cage& cage : cages)
    for (const Weight weight : {Weight::kShort, Weight::kPaper}) compared(cage, weight);
  const std::vector<Refiner> all = refiners();
  const std::vector<std::vector<double>> best = best_times(all, cages);
  std::printf("%-38s %10s %10s %7s %10s %7s\n", name, "none ms", "10 ms", "ratio", "mixed ms", "ratio");
  bool met = true;
  for (size_t i = 0; i < all.size(); ++i) {
    const double none = best[i][0], ten = best[i][1], mixed = best[i][2];
    std::printf("%-38s %10.2f %10.2f %7.3f %10.2f %7.3f", all[i].name, 1e3 * none, 1e3 * ten, ten / none, 1e3 * mixed,
                mixed / none);
    if (i == 0) {
      met = std::max(ten, mixed) <= kBar * none;
      std::printf("   at most %.2f: %s", kBar, met ? "pass" : "MISS");
    }
    std::printf("\n");
  }
  return met;
}

#ifdef HAVE_OPENSUBDIV
// OpenSubdiv's sharpness is document 02's number where it is a whole one: each level takes one off, and what it would blend of
// two rules is by a fraction, of which there is none. From 10 on it takes nothing off, which to this depth is the same.
void print_distances() {
  print_distance_heads();
  const Cage closed = torus(32), open = sheet(32);
  for (uint8_t number : {3, 10}) {
    const std::string of = ", a seam of " + std::to_string(number);
    print_distance("torus" + of + " round it", with_seam(closed, 256, 287, number), 6);
    print_distance("sheet" + of + " between borders", with_seam(open, 264, 296, number), 6);
  }
  print_distance("torus, mixed on a tenth of its edges", with_creases(closed, kMixed), 6);
  print_distance("sheet, mixed on a tenth of its edges", with_creases(open, kMixed), 6);
  print_distance("double pyramid, mixed on a tenth", with_creases(double_pyramid(12), kMixed), 12);
}
#endif

}  // namespace

bool print_creases() {
  std::printf("\nRefining to depth %d with creases on a tenth of the inner edges, of 10 each or of 1 to 10 in turn, with the\n",
              kDepth);
  std::printf("short weight, best of %d rounds in turn, process time; ratio: over the time without creases\n", kRounds);
  const bool closed = print_times("closed cage, a torus", torus(32)), open = print_times("open cage, a sheet", sheet(32));
  for (const Cage& cage : {crossed_torus(32), wheel(32), double_pyramid(12)})
    for (const Weight weight : {Weight::kShort, Weight::kPaper}) compared(with_creases(cage, kMixed), weight);
  std::printf("every cell of the C++ engines is the library's, here, on a wheel and where vertices have 4, 8 and 12 corners\n");
#ifdef HAVE_OPENSUBDIV
  print_distances();
#endif
  return closed && open;
}
