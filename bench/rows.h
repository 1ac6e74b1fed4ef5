// Engines that are timed in turn on a closed cage and on an open one, and their rows in the report.
#pragma once

#include <algorithm>
#include <cmath>
#include <cstdio>
#include <functional>
#include <vector>

#include "clock.h"

// One that does the library's work on an input. The library itself stands first among them.
template <class Input>
struct Engine {
  const char* name;
  int rounds;
  double bar;                               // how many times our time it has to take at least; 0: no bar
  std::function<double(const Input&)> run;  // the seconds of one run
};

// Best of the rounds of each engine, all in turn.
template <class Input>
std::vector<double> best_of_rounds(const std::vector<Engine<Input>>& all, const Input& input) {
  std::vector<double> best(all.size(), HUGE_VAL);
  for (int round = 0; round < kRounds; ++round)
    for (size_t i = 0; i < all.size(); ++i)
      if (round < all[i].rounds) best[i] = std::min(best[i], all[i].run(input));
  return best;
}

// Whether every bar is met.
template <class Input>
bool print_rows(const std::vector<Engine<Input>>& all, const std::vector<double>& closed, const std::vector<double>& open) {
  std::printf("\nratio: an engine's time over Ryebadger's\n");
  std::printf("%-38s %10s %7s %10s %7s\n", "engine", "closed ms", "ratio", "open ms", "ratio");
  bool met = true;
  for (size_t i = 0; i < all.size(); ++i) {
    const double ratio = closed[i] / closed[0], open_ratio = open[i] / open[0];
    std::printf("%-38s %10.2f %7.2f %10.2f %7.2f", all[i].name, 1e3 * closed[i], ratio, 1e3 * open[i], open_ratio);
    const bool pass = std::min(ratio, open_ratio) >= all[i].bar;
    if (all[i].bar > 0) std::printf("   at least %.2f: %s", all[i].bar, pass ? "pass" : "MISS");
    std::printf("\n");
    met = met && pass;
  }
  return met;
}
