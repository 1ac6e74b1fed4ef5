// The two weights of an inner vertex's spokes, the paper's as a table, and the report on refining with the paper's.
#pragma once

#include <array>
#include <cmath>
#include <cstdint>

// 3/(8n) with n corners, or that of the paper's rule V.3.
enum class Weight { kShort, kPaper };

// The paper's weight is a whole number of these parts, for a vertex of 2 to so many corners.
constexpr int64_t kParts = 1 << 24;
constexpr uint32_t kMostCorners = 32;

// Nearest to the formula, by corners. None is within 1/200 of halfway between two whole numbers, so a double is fine enough.
inline std::array<int64_t, kMostCorners + 1> paper_table() {
  constexpr double kTurn = 6.283185307179586;  // a full turn, in radians
  std::array<int64_t, kMostCorners + 1> table{};
  for (uint32_t n = 2; n <= kMostCorners; ++n) {
    const double root = 3.0 / 8 + std::cos(kTurn / n) / 4;
    table[n] = std::llround(kParts * (5.0 / 8 - root * root) / n);
  }
  return table;
}

inline const std::array<int64_t, kMostCorners + 1> kPaperTable = paper_table();

// Whether every bar is met.
bool print_weights();
