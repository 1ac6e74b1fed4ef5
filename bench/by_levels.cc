// The count question by hand: level after level, and each level by itself.
#include "counts.h"

namespace {

uint32_t refusal(const CountQuestion& of) {
  if (of.halfedges == 0 || of.halfedges % 3 != 0 || of.vertices == 0 || of.edges > of.halfedges ||
      of.edges < of.halfedges - of.edges)
    return RYEBADGER_SHAPE;
  if (of.halfedges > RYEBADGER_MOST_HALFEDGES || of.vertices > RYEBADGER_MOST_VERTICES || of.depth > RYEBADGER_MOST_DEPTH)
    return RYEBADGER_LIMIT;
  return RYEBADGER_DONE;
}

// Number, place and zeros; whether the question has an answer besides.
bool answered(const CountQuestion& of, Counted& answer) {
  answer.fill(0);
  answer[0] = refusal(of);
  return answer[0] == RYEBADGER_DONE;
}

}  // namespace

void count_stepping(const CountQuestion& of, Counted& answer) {
  if (!answered(of, answer)) return;
  uint32_t halfedges = uint32_t(of.halfedges), edges = uint32_t(of.edges), vertices = uint32_t(of.vertices);
  for (uint32_t level = 0; level <= of.depth; ++level) {
    answer[RYEBADGER_AT_H + level] = halfedges;
    answer[RYEBADGER_AT_E + level] = edges;
    answer[RYEBADGER_AT_V + level] = vertices;
    answer[RYEBADGER_AT_H_ROOM] += halfedges;
    answer[RYEBADGER_AT_V_ROOM] += vertices;
    answer[RYEBADGER_AT_E_ROOM] += edges;
    vertices += edges;
    edges = 2 * edges + halfedges;
    halfedges *= 4;
  }
}

void count_directly(const CountQuestion& of, Counted& answer) {
  if (!answered(of, answer)) return;
  const uint32_t halfedges = uint32_t(of.halfedges), edges = uint32_t(of.edges), vertices = uint32_t(of.vertices);
  const uint32_t triangles = halfedges / 3, depth = uint32_t(of.depth), deepest = 1u << depth;
  for (uint32_t level = 0; level < RYEBADGER_LEVELS; ++level) {
    const uint32_t asked = level <= depth, power = 1u << level, square = power * power;
    answer[RYEBADGER_AT_H + level] = asked * (square * halfedges);
    answer[RYEBADGER_AT_E + level] = asked * (power * edges + (square - power) / 2 * halfedges);
    answer[RYEBADGER_AT_V + level] = asked * (vertices + (power - 1) * edges + (square + 2 - 3 * power) / 2 * triangles);
  }
  answer[RYEBADGER_AT_H_ROOM] = (4 * deepest * deepest - 1) * triangles;
  answer[RYEBADGER_AT_V_ROOM] = (depth + 1) * vertices + (2 * deepest - depth - 2) * edges +
                                (2 * deepest * deepest + 3 * depth + 7 - 9 * deepest) / 3 * triangles;
  answer[RYEBADGER_AT_E_ROOM] = (2 * deepest - 1) * edges + (2 * deepest * deepest + 1 - 3 * deepest) * triangles;
}
