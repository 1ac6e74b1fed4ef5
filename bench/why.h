// Why a cage is sent back, by hand beside the proved library, and the report on it.
#pragma once

#include <array>

#include "cages.h"

// Number, place, clause, and the three numbers that show it.
using Why = std::array<uint32_t, 6>;

// The library's job from end to end: the cage check, then the first clause that holds at the place.
Why why_by_hand(const Cage& cage);

// There is no bar.
void print_why();
