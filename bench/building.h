// Engines that build a cage from plain triangles beside the proved library, and the report on them.
#pragma once

#include "soups.h"

// The library's job from end to end: checks 1, 2, 13, 4, 5, 7, 8 and 9 in this order, then TWIN, EDGE and the counts.
Answer build_by_map(const Soup& soup, Joins& lent);
Answer build_by_map_in_buffer(const Soup& soup, Joins& lent);
Answer build_by_sort(const Soup& soup, Joins& lent);

// Whether every bar is met.
bool print_building();
