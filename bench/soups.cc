#include "soups.h"

#include <algorithm>
#include <functional>

namespace {

constexpr uint32_t kTriangles = 1024;

Soup from_cage(const std::string& name, const Cage& cage) { return {name, cage.vert, cage.points}; }

// The soup with other numbers for its corners.
Soup renumbered(Soup soup, const std::string& name, const std::function<uint32_t(uint32_t)>& number) {
  for (uint32_t& corner : soup.vert) corner = number(corner);
  soup.name = name;
  return soup;
}

// Corner numbers by halfedge, without a point.
Soup by_halfedge(const std::string& name, const std::function<uint32_t(uint32_t)>& number) {
  Soup soup{name, {}, {}};
  for (uint32_t h = 0; h < 3 * kTriangles; ++h) soup.vert.push_back(number(h));
  return soup;
}

// Triangles of any three of 64 vertices, as long as no pair is on two halfedges: each vertex is on some fifty pairs.
Soup dense() {
  constexpr uint32_t kVertices = 64;
  Soup soup{"pairs of 64 vertices", {}, std::vector<int32_t>(3 * kVertices)};
  bool taken[kVertices][kVertices] = {};
  for (uint32_t a = 0; a < kVertices; ++a)
    for (uint32_t b = 0; b < kVertices; ++b)
      for (uint32_t c = 0; c < kVertices && soup.vert.size() < 3 * kTriangles; ++c) {
        if (a == b || b == c || c == a || taken[a][b] || taken[b][c] || taken[c][a]) continue;
        taken[a][b] = taken[b][c] = taken[c][a] = true;
        soup.vert.insert(soup.vert.end(), {a, b, c});
      }
  return soup;
}

// Triangles that share one vertex and no edge, so that its corners are not one fan.
Soup sheaf() {
  Soup soup{"one vertex, no fan", {}, std::vector<int32_t>(3 * (2 * kTriangles - 1))};
  for (uint32_t i = 0; i + 1 < kTriangles; ++i) soup.vert.insert(soup.vert.end(), {0, 2 * i + 1, 2 * i + 2});
  return soup;
}

// One pair of every triangle, read as one number, times the odd multiplier is a small number times the step.
Soup brought_together(uint64_t multiplier, uint64_t step) {
  uint64_t inverse = multiplier;
  for (int bits = 3; bits < 64; bits *= 2) inverse *= 2 - multiplier * inverse;
  const auto pair = [=](uint32_t h) { return inverse * step * (h / 3 + 1); };
  const std::string name = "pairs for " + std::to_string(multiplier) + " by " + std::to_string(step);
  return by_halfedge(name, [=](uint32_t h) { return h % 3 == 0 ? uint32_t(pair(h) >> 32) : uint32_t(pair(h)) + h % 3 - 1; });
}

void add_shifted(std::vector<Soup>& soups, uint32_t shift) {
  const std::string by = " by 2^" + std::to_string(shift);
  soups.push_back(by_halfedge("numbers" + by, [=](uint32_t h) { return h << shift; }));
  for (const Soup& soup : {from_cage("wheel", wheel(kTriangles)), dense()}) {
    soups.push_back(renumbered(soup, soup.name + by, [=](uint32_t v) { return v << shift; }));
    soups.push_back(renumbered(soup, soup.name + by + " from above", [=](uint32_t v) { return ~(v << shift); }));
  }
}

}  // namespace

std::vector<Soup> accepted_soups() {
  return {from_cage("closed", torus(32)), from_cage("open", sheet(32)), from_cage("wheel", wheel(kTriangles))};
}

std::vector<Soup> refused_soups() {
  Soup doubled = from_cage("doubled", torus(32));
  std::copy(doubled.vert.end() - 6, doubled.vert.end() - 3, doubled.vert.end() - 3);
  return {doubled, renumbered(from_cage("", torus(32)), "32 bits", [](uint32_t v) { return (v + 1) * 2654435769u; })};
}

std::vector<Soup> crafted_soups() {
  std::vector<Soup> soups{sheaf()};
  soups.push_back(by_halfedge("one number", [](uint32_t) { return 7; }));
  soups.push_back(by_halfedge("two numbers", [](uint32_t h) { return h % 2; }));
  soups.push_back(by_halfedge("one triangle", [](uint32_t h) { return h % 3; }));
  for (uint32_t shift = 0; shift <= 20; ++shift) add_shifted(soups, shift);
  for (uint64_t multiplier : {1ull, 31ull, 33ull, 16777619ull, 1099511628211ull, 2654435769ull, 2654435761ull, 2246822507ull,
                              3266489909ull, 0x9e3779b97f4a7c15ull, 0xbf58476d1ce4e5b9ull, 0x94d049bb133111ebull,
                              0xff51afd7ed558ccdull, 0xc4ceb9fe1a85ec53ull, 0x517cc1b727220a95ull})
    for (uint64_t step : {1ull, 1ull << 32, 1ull << 52}) soups.push_back(brought_together(multiplier, step));
  return soups;
}
