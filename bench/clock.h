// Process time of a call, in seconds: what other programs do on the machine is not in it.
#pragma once

#include <time.h>

#include <algorithm>
#include <cmath>

constexpr int kRounds = 15;

template <class Call>
double seconds(Call call) {
  timespec start, end;
  clock_gettime(CLOCK_PROCESS_CPUTIME_ID, &start);
  call();
  clock_gettime(CLOCK_PROCESS_CPUTIME_ID, &end);
  return double(end.tv_sec - start.tv_sec) + 1e-9 * double(end.tv_nsec - start.tv_nsec);
}

// Seconds per call of so many, that the clock is fine enough.
template <class Call>
double seconds_of_each(int calls, Call call) {
  return seconds([&] {
           for (int i = 0; i < calls; ++i) call();
         }) /
         calls;
}

// Best of the rounds.
template <class Call>
double best_of_calls(int calls, Call call) {
  double best = HUGE_VAL;
  for (int round = 0; round < kRounds; ++round) best = std::min(best, seconds_of_each(calls, call));
  return best;
}
