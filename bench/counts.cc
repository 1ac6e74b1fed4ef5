#include "counts.h"

#include <algorithm>
#include <cmath>
#include <cstdio>
#include <iterator>
#include <stdexcept>
#include <vector>

#include "clock.h"

namespace {

void library_count(const CountQuestion& of, Counted& answer) {
  ryebadger_counts(of.halfedges, of.edges, of.vertices, of.depth, answer.data());
}

struct Counter {
  const char* name;
  double bar;  // how many times our time it has to take at least; 0: no bar
  void (*count)(const CountQuestion& question, Counted& answer);
};

constexpr Counter kCounters[] = {
    {"Ryebadger, proved", 0, library_count},
    {"C++ level after level", 1 / 1.1, count_stepping},
    {"C++ by the same equations, in 32 bits", 0, count_directly},
};

// One of every size up to the limit.
std::vector<CountQuestion> questions(uint64_t depth) {
  std::vector<CountQuestion> all;
  for (uint64_t h = 3; h <= RYEBADGER_MOST_HALFEDGES; h += 3) all.push_back({h, (3 * h + 3) / 4, h / 2 + 1, depth});
  return all;
}

std::vector<Counted> answers(const Counter& counter, const std::vector<CountQuestion>& all) {
  std::vector<Counted> answers(all.size());
  for (size_t i = 0; i < all.size(); ++i) counter.count(all[i], answers[i]);
  return answers;
}

// Seconds of one question, each counter in turn.
std::vector<double> times(uint64_t depth) {
  const std::vector<CountQuestion> all = questions(depth);
  const std::vector<Counted> ours = answers(kCounters[0], all);
  for (const Counter& counter : kCounters)
    if (answers(counter, all) != ours) throw std::runtime_error("a counter's answer differs from the library's");
  std::vector<double> best(std::size(kCounters), HUGE_VAL);
  Counted answer;
  for (int round = 0; round < kRounds; ++round)
    for (size_t i = 0; i < best.size(); ++i) {
      const double time = seconds([&] {
        for (const CountQuestion& question : all) kCounters[i].count(question, answer);
      });
      best[i] = std::min(best[i], time / double(all.size()));
    }
  return best;
}

}  // namespace

bool print_counts() {
  const std::vector<double> shallow = times(0), deep = times(RYEBADGER_MOST_DEPTH), refused = times(RYEBADGER_LEVELS);
  std::printf("\nThe count question, one of each size, best of %d rounds in turn, process time; ns a question\n", kRounds);
  std::printf("%-38s %10s %10s %10s %7s\n", "", "depth 0", "depth 6", "refused", "ratio");
  bool met = true;
  for (size_t i = 0; i < shallow.size(); ++i) {
    const double ratio = deep[i] / deep[0];
    std::printf("%-38s %10.1f %10.1f %10.1f %7.2f", kCounters[i].name, 1e9 * shallow[i], 1e9 * deep[i], 1e9 * refused[i],
                ratio);
    const bool pass = ratio >= kCounters[i].bar;
    if (kCounters[i].bar > 0) std::printf("   at least %.2f: %s", kCounters[i].bar, pass ? "pass" : "MISS");
    std::printf("\n");
    met = met && pass;
  }
  return met;
}
