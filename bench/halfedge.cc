#include "halfedge.h"

#include <cstdio>
#include <iterator>
#include <stdexcept>
#include <vector>

#include "clock.h"
#include "library.h"
#include "ryebadger.h"

namespace {

constexpr uint32_t kAsked = 1024;  // halfedges of a level, one after another

struct Climber {
  const char* name;
  int passes;  // over the halfedges, that the clock is fine enough
  Halfedge (*answer)(const Cage& cage, Counts counts, uint64_t depth, uint64_t halfedge);
};

constexpr Climber kClimbers[] = {
    {"Ryebadger, proved, with its checks", 1,
     [](const Cage& cage, Counts, uint64_t depth, uint64_t halfedge) { return library_halfedge(cage, depth, halfedge); }},
    {"C++ by climbing, the same checks first", 1,
     [](const Cage& cage, Counts, uint64_t depth, uint64_t halfedge) { return halfedge_by_hand(cage, depth, halfedge); }},
    {"C++ by climbing, without any check", 200, halfedge_climbed},
};

// The library's answer, once it is found to be the one by hand too.
Halfedge compared(const Cage& cage, uint64_t depth, uint64_t halfedge) {
  const Halfedge answer = library_halfedge(cage, depth, halfedge);
  if (halfedge_by_hand(cage, depth, halfedge) != answer ||
      (answer[0] == RYEBADGER_DONE && halfedge_climbed(cage, cage.counts(), depth, halfedge) != answer))
    throw std::runtime_error("one halfedge: differs from the library's");
  return answer;
}

// Halfedges all over the level, of every row.
std::vector<uint64_t> spread(const Cage& cage, uint64_t depth) {
  const uint64_t end = uint64_t(cage.twin.size()) << 2 * depth;
  std::vector<uint64_t> halfedges;
  for (uint64_t i = 0; i < kAsked; ++i) halfedges.push_back(i * 2654435761 % end);
  return halfedges;
}

// Seconds of one answer, each climber in turn.
std::vector<double> times(const Cage& cage, uint64_t depth) {
  const std::vector<uint64_t> halfedges = spread(cage, depth);
  for (const uint64_t halfedge : halfedges)
    if (compared(cage, depth, halfedge)[0] != RYEBADGER_DONE) throw std::runtime_error("one halfedge: refused");
  const Counts counts = cage.counts();
  std::vector<double> best(std::size(kClimbers), HUGE_VAL);
  for (int round = 0; round < kRounds; ++round)
    for (size_t i = 0; i < best.size(); ++i) {
      const Climber& climber = kClimbers[i];
      const double time = seconds_of_each(climber.passes, [&] {
        for (const uint64_t halfedge : halfedges) climber.answer(cage, counts, depth, halfedge);
      });
      best[i] = std::min(best[i], time / kAsked);
    }
  return best;
}

// Seconds of refining to the depth.
double refining_time(const Cage& cage, int depth) {
  Tables lent = lent_tables(cage.counts());
  return best_of_calls(depth == 0 ? 100 : 1, [&] { library_refine(cage, depth, Weight::kShort, lent); });
}

// Halfedges that the level has and such that it has not, at depths that are answered and at one that is not.
void compare_numbers(const Cage& cage) {
  const uint64_t end = cage.twin.size();
  for (const uint64_t depth : {0, 1, 2, 3, 4, 5, 6, 7})
    for (const uint64_t last : {(end << 2 * depth) - 1, (uint64_t{1} << 32) - 1, UINT64_MAX - 1})
      for (const uint64_t halfedge : {last, last + 1}) compared(cage, depth, halfedge);
}

void compare_changed(const Cage& cage) {
  each_changed(cage, [](const Cage& changed) { compared(changed, kDepth, 1000); });
}

}  // namespace

void print_halfedge() {
  std::printf(
      "\nOne halfedge of a level, H 3,072, %u of them all over the level, best of %d rounds in turn, process time; ns each\n",
      kAsked, kRounds);
  std::printf("ratio: at depth 6 over Ryebadger's\n%-38s %12s %12s %9s %12s %12s %9s\n", "", "closed, at 0", "at 6", "ratio",
              "open, at 0", "at 6", "ratio");
  const Cage closed = torus(32), open = sheet(32);
  const std::vector<double> all[] = {times(closed, 0), times(closed, kDepth), times(open, 0), times(open, kDepth)};
  const auto print_row = [&](const char* name, const std::array<double, 4>& row) {
    std::printf("%-38s %12.1f %12.1f %9.4f %12.1f %12.1f %9.4f\n", name, 1e9 * row[0], 1e9 * row[1], row[1] / all[1][0],
                1e9 * row[2], 1e9 * row[3], row[3] / all[3][0]);
  };
  for (size_t i = 0; i < std::size(kClimbers); ++i) print_row(kClimbers[i].name, {all[0][i], all[1][i], all[2][i], all[3][i]});
  print_row("Ryebadger, refining all to that depth",
            {refining_time(closed, 0), refining_time(closed, kDepth), refining_time(open, 0), refining_time(open, kDepth)});
  for (const Cage& cage : {closed, open, wheel(1024), with_split_fan(closed)}) compare_numbers(cage), compare_changed(cage);
  std::printf("every number by hand is the library's, here, past the level's end and on cages with a changed cell\n");
}
