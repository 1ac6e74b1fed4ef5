// The engines beside the proved library.
#pragma once

#include "cages.h"
#include "weights.h"

// Levels 0 to the depth end to end in lent tables that are long enough, with no check.
void refine_plain(const Cage& cage, int depth, Weight weight, Tables& lent);
void refine_in_passes(const Cage& cage, int depth, Weight weight, Tables& lent);
void refine_tuned(const Cage& cage, int depth, Weight weight, Tables& lent);
void refine_by_fours(const Cage& cage, int depth, Weight weight, Tables& lent);

// The libraries allocate for themselves. Timed is their refining alone: neither making their own form of the cage nor
// freeing what they made. They tell what the last level has, so that it can be held to document 01's counts.
struct Foreign {
  double seconds;
  size_t triangles, vertices;
};

Foreign refine_opensubdiv(const Cage& cage, int depth);

// OpenMesh and CGAL are nearly all in their headers, and check themselves as they go unless NDEBUG is defined: each is
// measured both ways. The two builds of one library must not share code, so each is a shared object that shows only this.
#define SHOWN __attribute__((visibility("default")))
SHOWN Foreign refine_openmesh(const Cage& cage, int depth);
SHOWN Foreign refine_openmesh_unchecked(const Cage& cage, int depth);
SHOWN Foreign refine_cgal(const Cage& cage, int depth);
SHOWN Foreign refine_cgal_unchecked(const Cage& cage, int depth);

// The largest distance between the points of the last of our levels and OpenSubdiv's, in 1/1024 mm. Its rules are the paper's:
// the short weight is the same only where every vertex has six corners or lies on a border.
double distance_to_opensubdiv(const Cage& cage, int depth, const Tables& levels);
