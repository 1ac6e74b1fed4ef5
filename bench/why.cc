#include "why.h"

#include <cstdio>
#include <stdexcept>

#include "clock.h"
#include "library.h"
#include "ryebadger.h"

namespace {

constexpr int kCalls = 40;

// The last edge made one with the edge before it.
Cage with_shared_edge(Cage cage) {
  const uint32_t last = cage.counts().edges - 1;
  for (uint32_t& edge : cage.edge)
    if (edge == last) --edge;
  return cage;
}

// The library's answer, once it is found to be the one by hand too.
Why compared(const Cage& cage) {
  const Why answer = library_why(cage);
  if (why_by_hand(cage) != answer) throw std::runtime_error("saying why: differs from the library's");
  return answer;
}

// Best of the rounds of the library and of the same by hand, in turn.
std::array<double, 2> best_times(const Cage& cage) {
  std::array<double, 2> best{HUGE_VAL, HUGE_VAL};
  for (int round = 0; round < kRounds; ++round)
    for (const bool ours : {true, false}) {
      const auto call = ours ? library_why : why_by_hand;
      best[!ours] = std::min(best[!ours], seconds_of_each(kCalls, [&] { call(cage); }));
    }
  return best;
}

struct Row {
  const char* name;
  uint32_t number, clause;
  Cage (*made)(Cage cage);
};

constexpr Row kRows[] = {
    {"an accepted cage", RYEBADGER_DONE, RYEBADGER_NO_CLAUSE, [](Cage cage) { return cage; }},
    {"an edge that is shared", RYEBADGER_EDGE, RYEBADGER_EDGE_SHARED, with_shared_edge},
    {"corners that are not joined", RYEBADGER_FAN, RYEBADGER_NOT_JOINED, with_split_fan},
};

}  // namespace

void print_why() {
  std::printf(
      "\nSaying why a cage is sent back, H 3,072, best of %d rounds in turn, process time; ratio: C++ by hand over Ryebadger\n",
      kRounds);
  std::printf("%-38s %10s %10s %7s %10s %10s %7s\n", "", "closed us", "by hand", "ratio", "open us", "by hand", "ratio");
  const Cage closed = torus(32), open = sheet(32);
  for (const Row& row : kRows) {
    std::printf("%-38s", row.name);
    for (const Cage& cage : {row.made(closed), row.made(open)}) {
      const Why answer = compared(cage);
      if (answer[0] != row.number || answer[2] != row.clause) throw std::runtime_error("saying why: another clause");
      const auto [ours, by_hand] = best_times(cage);
      std::printf(" %10.1f %10.1f %7.2f", 1e6 * ours, 1e6 * by_hand, by_hand / ours);
    }
    std::printf("\n");
  }
  for (const Cage& cage : {closed, open, wheel(1024), with_split_fan(closed)}) each_changed(cage, compared);
  std::printf("every number by hand is the library's, here and on cages with a changed cell\n");
}
