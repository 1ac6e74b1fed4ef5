#include "stl.h"

#include <cstdio>
#include <cstring>
#include <stdexcept>

#include "clock.h"
#include "library.h"
#include "rows.h"
#include "ryebadger.h"

namespace {

// The last level of a cage: its VERT and its points.
Soup last_level(const std::string& name, const Cage& cage) {
  Counts counts = cage.counts();
  Tables levels = lent_tables(counts);
  library_refine(cage, kDepth, Weight::kShort, levels);
  auto vert = levels.vert.begin();
  auto points = levels.points.begin();
  for (int level = 0; level < kDepth; ++level, counts = counts.finer())
    vert += counts.halfedges, points += 3 * size_t(counts.vertices);
  return {name, {vert, vert + counts.halfedges}, {points, points + 3 * size_t(counts.vertices)}};
}

// Every coordinate in range, each once.
Soup all_coordinates() {
  constexpr int32_t kMost = RYEBADGER_MOST_COORDINATE;
  Soup soup{"all coordinates", {}, {}};
  for (int32_t coordinate = -kMost; coordinate <= kMost; ++coordinate) soup.points.push_back(coordinate);
  for (uint32_t v = 0; v < soup.points.size() / 3; ++v) soup.vert.push_back(v);
  return soup;
}

// A lent file, and the answer that goes with it.
struct File {
  Written answer;
  std::vector<uint8_t> bytes;

  bool operator==(const File& other) const { return answer == other.answer && bytes == other.bytes; }
};

// A few bytes past what the level needs, which are to stay.
File lent_file(const Soup& level) { return {{}, std::vector<uint8_t>(RYEBADGER_STL_LENGTH(level.vert.size() / 3) + 7)}; }

void fill(File& file) { std::memset(file.bytes.data(), 0xab, file.bytes.size()); }

using Write = Written (*)(const Soup& level, std::vector<uint8_t>& file);

double time_of(Write write, const Soup& level, File& file) {
  fill(file);
  return seconds([&] { file.answer = write(level, file.bytes); });
}

// Ours, which leaves its file in the first one, and the others, which get the second.
std::vector<Engine<Soup>> writers(File& file, File& lent) {
  const auto ours = [&](const Soup& level) { return time_of(library_write_stl, level, file); };
  const auto by_hand = [&](Write write) {
    return [&file, &lent, write](const Soup& level) {
      const double time = time_of(write, level, lent);
      if (!(lent == file)) throw std::runtime_error("an STL file's bytes differ from the library's on " + level.name);
      return time;
    };
  };
  return {
      {"Ryebadger, proved, with its checks", kRounds, 0, ours},
      {"C++ facet by facet, without checks", kRounds, 1 / 1.1, by_hand(write_facets)},
      {"C++ facet by facet, checks first", kRounds, 1 / 1.1, by_hand(write_checked)},
      {"C++ from floats, without checks", kRounds, 0, by_hand(write_from_floats)},
      {"filling the same bytes", kRounds, 0, [&](const Soup&) { return seconds([&] { fill(lent); }); }},
  };
}

}  // namespace

bool print_stl() {
  const Soup closed = last_level("the closed cage", torus(32)), open = last_level("the open cage", sheet(32));
  File file = lent_file(closed), lent = file;
  const std::vector<Engine<Soup>> all = writers(file, lent);
  std::printf("\nWriting level %d as STL, H %zu, best of %d rounds in turn, process time; lent %.1f MB\n", kDepth,
              closed.vert.size(), kRounds, 1e-6 * double(file.bytes.size()));
  const std::vector<double> closed_times = best_of_rounds(all, closed), open_times = best_of_rounds(all, open);
  // Compared and not timed: the two cages do not go to the ends of the range.
  const Soup ends = all_coordinates();
  for (const Engine<Soup>& engine : all) engine.run(ends);
  std::printf("every number and byte of the C++ engines is the library's, here and on every coordinate in range\n");
  return print_rows(all, closed_times, open_times);
}
