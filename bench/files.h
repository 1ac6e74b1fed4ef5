// Cage files by hand beside the proved library, and the report on them.
#pragma once

#include "cages.h"
#include "soups.h"
#include "weights.h"

using Bytes = std::vector<uint8_t>;

// Number, place, form, H, V, E and weight.
using FileRead = std::array<uint32_t, 7>;

// The library's job from end to end: every refusal in its order, then every cell or byte.
FileRead read_by_hand(const Bytes& file, Tables& lent);
Written write_form_2_by_hand(const Cage& cage, Weight weight, Bytes& lent);
Written to_form_2_by_hand(const Bytes& file, Bytes& lent);
Written to_form_1_by_hand(const Bytes& file, Bytes& lent);

// There is no bar.
void print_files();
