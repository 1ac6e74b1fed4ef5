// What the engines written by hand share: where the levels stand in the lent tables.
#pragma once

#include <algorithm>

#include "cages.h"
#include "weights.h"

// A level, and the room of the next one straight after it.
struct Level {
  Counts counts;
  const uint32_t *twin, *vert, *edge;
  const int32_t* points;
  const uint8_t* creases;
};

struct Room {
  uint32_t *twin, *vert, *edge;
  int32_t* points;
  uint8_t* creases;
};

// Puts the cage in front and calls step(level, room) for every level below the depth.
template <class Step>
void each_level(const Cage& cage, int depth, Tables& lent, Step step) {
  std::copy(cage.twin.begin(), cage.twin.end(), lent.twin.begin());
  std::copy(cage.vert.begin(), cage.vert.end(), lent.vert.begin());
  std::copy(cage.edge.begin(), cage.edge.end(), lent.edge.begin());
  std::copy(cage.points.begin(), cage.points.end(), lent.points.begin());
  std::copy(cage.creases.begin(), cage.creases.end(), lent.creases.begin());
  Counts counts = cage.counts();
  size_t at = 0, point = 0, edge = 0;
  for (int level = 0; level < depth; ++level) {
    const Level old{counts, &lent.twin[at], &lent.vert[at], &lent.edge[at], &lent.points[point], &lent.creases[edge]};
    at += counts.halfedges;
    point += 3 * size_t(counts.vertices);
    edge += counts.edges;
    step(old, Room{&lent.twin[at], &lent.vert[at], &lent.edge[at], &lent.points[point], &lent.creases[edge]});
    counts = counts.finer();
  }
}

// The next level by the plain engine.
void next_plain(const Level& old, Weight weight, const Room& fresh);
