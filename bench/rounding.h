// Rounding to the nearest whole number, halves going away from zero.
#pragma once

#include <cstdint>

// By 2^bits. A shift goes down, so half of that is added first, and to a negative number one less: its halves then go down.
template <class Number>
Number rounded_shift(Number numerator, int bits) {
  constexpr int kSign = 8 * sizeof(Number) - 1;
  return (numerator + (Number(1) << (bits - 1)) + (numerator >> kSign)) >> bits;
}

// By an even number. A division goes toward zero, so half of that is added away from it.
inline int32_t rounded(int64_t numerator, int64_t denominator) {
  const int64_t half = denominator / 2;
  return int32_t((numerator + (numerator < 0 ? -half : half)) / denominator);
}
