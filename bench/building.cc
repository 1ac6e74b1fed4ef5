#include "building.h"

#include <cstdio>
#include <stdexcept>

#include "clock.h"
#include "library.h"

namespace {

constexpr int kCalls = 40;
constexpr int kCraftedCalls = 10;

struct Builder {
  const char* name;
  double bar;  // how many times our time it has to take at least on every cage that is accepted; 0: no bar
  Answer (*build)(const Soup& soup, Joins& lent);
};

const std::vector<Builder> kBuilders{
    {"Ryebadger, proved", 0, library_build},
    {"C++ with std::unordered_map", 1, build_by_map},
    {"the same, its nodes in one buffer", 0, build_by_map_in_buffer},
    {"C++ with std::sort", 1, build_by_sort},
};

// Lent tables with a few cells past what a soup needs, which are to stay.
Joins lent_joins(const Soup& soup) {
  return {std::vector<uint32_t>(soup.vert.size() + 7, 0xabababab), std::vector<uint32_t>(soup.vert.size() + 5, 0xcdcdcdcd)};
}

// What the library answers, once every number of it and every lent cell is found to be the other engines' too.
Answer compared(const Soup& soup) {
  Joins ours = lent_joins(soup);
  const Answer answer = library_build(soup, ours);
  for (const Builder& builder : kBuilders) {
    Joins lent = lent_joins(soup);
    if (builder.build(soup, lent) != answer || !(lent == ours))
      throw std::runtime_error(std::string(builder.name) + ": cells differ from the library's on " + soup.name);
  }
  return answer;
}

// Best of the rounds of each builder, all in turn.
std::vector<double> best_times(const Soup& soup) {
  Joins lent = lent_joins(soup);
  std::vector<double> best(kBuilders.size(), HUGE_VAL);
  for (int round = 0; round < kRounds; ++round)
    for (size_t i = 0; i < best.size(); ++i)
      best[i] = std::min(best[i], seconds_of_each(kCalls, [&] { kBuilders[i].build(soup, lent); }));
  return best;
}

struct Timed {
  std::string name;
  bool accepted;
  std::vector<double> times;
};

// Every soup timed, and what is answered of those that are refused.
std::vector<Timed> time_all() {
  std::vector<Timed> all;
  for (const auto& soups : {accepted_soups(), refused_soups()})
    for (const Soup& soup : soups) {
      const Answer answer = compared(soup);
      if (answer[0] != 0) std::printf("%s: refused by %u at %u\n", soup.name.c_str(), answer[0], answer[1]);
      all.push_back({soup.name, answer[0] == 0, best_times(soup)});
    }
  return all;
}

// A row for each engine, and whether the bars are met.
bool print_rows(const std::vector<Timed>& all) {
  std::printf("ratio: an engine's time over Ryebadger's\n%-38s", "engine");
  for (const Timed& soup : all) std::printf(" %8s us %6s", soup.name.c_str(), "ratio");
  std::printf("\n");
  bool met = true;
  for (size_t i = 0; i < kBuilders.size(); ++i) {
    std::printf("%-38s", kBuilders[i].name);
    double least = HUGE_VAL;
    for (const Timed& soup : all) {
      const double ratio = soup.times[i] / soup.times[0];
      std::printf(" %11.1f %6.2f", 1e6 * soup.times[i], ratio);
      if (soup.accepted) least = std::min(least, ratio);
    }
    const bool pass = least >= kBuilders[i].bar;
    if (kBuilders[i].bar > 0) std::printf("   at least %.2f: %s", kBuilders[i].bar, pass ? "pass" : "MISS");
    std::printf("\n");
    met = met && pass;
  }
  return met;
}

// The longest that a crafted soup takes, against the common case.
bool print_crafted(double common) {
  constexpr double kBar = 10;
  double longest = 0;
  std::string name;
  const std::vector<Soup> soups = crafted_soups();
  for (const Soup& soup : soups) {
    compared(soup);
    Joins lent = lent_joins(soup);
    const double time = best_of_calls(kCraftedCalls, [&] { library_build(soup, lent); });
    if (time > longest) longest = time, name = soup.name;
  }
  const bool pass = longest <= kBar * common;
  std::printf("of %zu soups meant to take long, the longest takes %.2f times the closed cage's time   at most %.0f: %s\n",
              soups.size(), longest / common, kBar, pass ? "pass" : "MISS");
  std::printf("  it is: %s\n", name.c_str());
  return pass;
}

}  // namespace

bool print_building() {
  std::printf("\nBuilding from plain triangles, H 3,072, best of %d rounds in turn, process time\n", kRounds);
  const std::vector<Timed> all = time_all();
  const bool met = print_rows(all), crafted = print_crafted(all[0].times[0]);
  std::printf("every number and cell of the C++ engines is the library's, on all of these\n");
  return met && crafted;
}
