// The report: the proved library beside other engines, in refining with either weight and with creases, in building, in writing
// STL, in the count question, in cage files, in saying why and in one halfedge, its cost by depth, and its other operations by
// size.
#include <cstdio>
#include <functional>
#include <stdexcept>
#include <string>

#include "building.h"
#include "clock.h"
#include "counts.h"
#include "creases.h"
#include "engines.h"
#include "files.h"
#include "halfedge.h"
#include "library.h"
#include "rows.h"
#include "stl.h"
#include "weights.h"
#include "why.h"

namespace {

constexpr int kSlowRounds = 3;  // of engines that take most of a second

// Ours, which leaves its levels in the first tables, and the others, which get the second ones.
std::vector<Engine<Cage>> engines(Tables& levels, Tables& lent) {
  const auto ours = [&](const Cage& cage) {
    fill(levels);
    return seconds([&] { library_refine(cage, kDepth, Weight::kShort, levels); });
  };
  const auto exact = [&](void (*refine)(const Cage&, int, Weight, Tables&)) {
    return [&levels, &lent, refine](const Cage& cage) {
      fill(lent);
      const double time = seconds([&] { refine(cage, kDepth, Weight::kShort, lent); });
      if (!(lent == levels)) throw std::runtime_error("an engine's cells differ from the library's");
      return time;
    };
  };
  [[maybe_unused]] const auto foreign = [](Foreign (*refine)(const Cage&, int)) {
    return [refine](const Cage& cage) {
      Counts last = cage.counts();
      for (int level = 0; level < kDepth; ++level) last = last.finer();
      const Foreign done = refine(cage, kDepth);
      if (3 * done.triangles != last.halfedges || done.vertices != last.vertices)
        throw std::runtime_error("a last level has other counts than ours");
      return done.seconds;
    };
  };
  return {
      {"Ryebadger, proved, with its checks", kRounds, 0, ours},
      {"C++ scattering, in the same passes", kRounds, 1 / 1.1, exact(refine_in_passes)},
      {"C++ scattering, in one pass", kRounds, 1 / 1.1, exact(refine_tuned)},
      {"C++ scattering, by four triangles", kRounds, 0, exact(refine_by_fours)},
      {"C++ plain, walking fans", kRounds, 1.5, exact(refine_plain)},
#ifdef HAVE_OPENSUBDIV
      {"OpenSubdiv", kRounds, 7, foreign(refine_opensubdiv)},
#endif
#ifdef HAVE_OPENMESH
      {"OpenMesh", kSlowRounds, 25, foreign(refine_openmesh)},
      {"OpenMesh without its own checks", kSlowRounds, 0, foreign(refine_openmesh_unchecked)},
#endif
#ifdef HAVE_CGAL
      {"CGAL", kSlowRounds, 25, foreign(refine_cgal)},
      {"CGAL without its own checks", kSlowRounds, 0, foreign(refine_cgal_unchecked)},
#endif
      {"filling the same bytes", kRounds, 0, [&](const Cage&) { return seconds([&] { fill(lent); }); }},
  };
}

void print_cage(const char* name, const Cage& cage, const Tables& lent) {
  const Counts counts = cage.counts();
  const double bytes = 4.0 * double(3 * lent.twin.size() + lent.points.size()) + double(lent.creases.size());
  std::printf("%s: H %u, E %u, V %u, %u border edges; lent %.1f MB\n", name, counts.halfedges, counts.edges, counts.vertices,
              2 * counts.edges - counts.halfedges, 1e-6 * bytes);
}

bool print_engines() {
  std::printf("\nRefining to depth %d with the short weight, best of %d rounds in turn, process time\n", kDepth, kRounds);
  std::printf("best of %d where one takes most of a second\n", kSlowRounds);
  const Cage closed = torus(32), open = sheet(32), hub = wheel(1024);
  Tables levels = lent_tables(closed.counts()), lent = levels;
  const std::vector<Engine<Cage>> all = engines(levels, lent);
  print_cage("closed cage, a torus", closed, lent);
  const std::vector<double> closed_times = best_of_rounds(all, closed);
  levels = lent = lent_tables(open.counts());
  print_cage("open cage, a sheet", open, lent);
  const std::vector<double> open_times = best_of_rounds(all, open);
  // Compared and not timed: the two cages have no vertex of other than six corners inside.
  levels = lent = lent_tables(hub.counts());
  for (const Engine<Cage>& engine : all) engine.run(hub);
  std::printf("every cell of the C++ engines is the library's, here and on a wheel of 1,024 triangles\n");
  return print_rows(all, closed_times, open_times);
}

void print_depths() {
  std::printf("\nRyebadger by depth, closed cage\n%-38s %10s %10s %10s %7s\n", "", "halfedges", "ms", "ns each", "factor");
  const Cage cage = torus(32);
  Counts counts = cage.counts();
  Tables lent = lent_tables(counts);
  double halfedges = 0, before = 0;
  for (int depth = 0; depth <= kDepth; ++depth, counts = counts.finer()) {
    halfedges += counts.halfedges;
    const double time = best_of_calls(depth < 4 ? 100 : 1, [&] { library_refine(cage, depth, Weight::kShort, lent); });
    std::printf("depth %-32d %10.0f %10.3f %10.2f", depth, halfedges, 1e3 * time, 1e9 * time / halfedges);
    if (depth > 0) std::printf(" %7.2f", time / before);
    std::printf("\n");
    before = time;
  }
}

void print_operation(const char* name, const Cage& cage, const std::function<void()>& call) {
  const double time = best_of_calls(100, call), halfedges = double(cage.twin.size());
  std::printf("%-38s %10.0f %10.4f %10.2f\n", name, halfedges, 1e3 * time, 1e9 * time / halfedges);
}

void print_operations() {
  std::printf("\nRyebadger by size\n%-38s %10s %10s %10s\n", "", "halfedges", "ms", "ns each");
  std::vector<Cage> cages;
  for (uint32_t columns : {4, 8, 16, 32}) cages.push_back(torus(columns));
  for (const Cage& cage : cages) print_operation("check, torus", cage, [&] { library_check(cage); });
  const Cage hub = wheel(1024);
  print_operation("check, wheel round one vertex", hub, [&] { library_check(hub); });
  std::vector<Bytes> files;
  for (const Cage& cage : cages) {
    files.emplace_back(24 + 6 * cage.twin.size() + 4 * cage.points.size());
    print_operation("write with its checks, torus", cage, [&] { library_write(cage, files.back()); });
  }
  for (size_t i = 0; i < cages.size(); ++i) {
    Tables lent = cages[i];
    fill(lent);
    lent.creases = cages[i].creases;  // which form 1 has none of
    print_operation("read, torus", cages[i], [&] { library_read(files[i], lent); });
    if (!(lent == cages[i])) throw std::runtime_error("a cage read is not the cage written");
  }
}

}  // namespace

int main(int count, char** words) try {
  const bool bars = count == 2 && std::string(words[1]) == "--bars";
  if (count > 1 && !bars) {
    std::fprintf(stderr, "usage: bench/run [--bars]\n");
    return 2;
  }
  const bool refining = print_engines(), weights = print_weights(), creases = print_creases(), building = print_building(),
             stl = print_stl(), counts = print_counts();
  print_files();
  print_why();
  print_halfedge();
  print_depths();
  print_operations();
  return bars && !(refining && weights && creases && building && stl && counts) ? 1 : 0;
} catch (const std::exception& fault) {
  std::fprintf(stderr, "bench/run: %s\n", fault.what());
  return 3;
}
