#include "files.h"

#include <cstdio>
#include <functional>
#include <stdexcept>

#include "clock.h"
#include "library.h"
#include "ryebadger.h"

namespace {

constexpr int kCalls = 40;

// A cage with creases, its file of form 2 with the paper's weight, and its files of both forms without creases.
struct Filed {
  Cage creased;
  Bytes form_2, plain_form_2, form_1;
};

// What is lent, with a few cells and bytes past what any cage here needs, and the numbers that are answered.
struct Lent {
  Tables tables;
  Bytes file;
  std::vector<uint32_t> answer;

  bool operator==(const Lent& other) const {
    return tables == other.tables && file == other.file && answer == other.answer;
  }
};

Lent lent() {
  constexpr size_t kCells = RYEBADGER_MOST_HALFEDGES + 7;
  const std::vector<uint32_t> table(kCells);
  Lent all{{table, table, table, std::vector<int32_t>(3 * RYEBADGER_MOST_VERTICES + 7), Bytes(kCells)},
           Bytes(RYEBADGER_LONGEST_FILE + 7, 0xab),
           {}};
  fill(all.tables);
  return all;
}

template <size_t kLength>
void keep(Lent& left, const std::array<uint32_t, kLength>& answer) {
  left.answer.assign(answer.begin(), answer.end());
}

// A call on a cage's file, or on a part or a changed one of it. It leaves its answer beside what it was lent.
using Call = std::function<void(const Bytes& file, Lent& left)>;

struct Operation {
  const char* name;
  const Bytes& file;  // which writing does not look at
  Call ours, by_hand;
};

std::vector<Operation> operations(const Filed& of) {
  const auto reading = [](FileRead (*read)(const Bytes&, Tables&)) {
    return [read](const Bytes& file, Lent& left) { keep(left, read(file, left.tables)); };
  };
  const auto writing = [&of](Written (*write)(const Cage&, Weight, Bytes&)) {
    return [&of, write](const Bytes&, Lent& left) { keep(left, write(of.creased, Weight::kPaper, left.file)); };
  };
  const auto moving = [](Written (*move)(const Bytes&, Bytes&)) {
    return [move](const Bytes& file, Lent& left) { keep(left, move(file, left.file)); };
  };
  return {
      {"reading form 1", of.form_1, reading(library_read), reading(read_by_hand)},
      {"reading form 2", of.form_2, reading(library_read), reading(read_by_hand)},
      {"writing form 2", of.form_2, writing(library_write_form_2), writing(write_form_2_by_hand)},
      {"moving to form 2", of.form_1, moving(library_to_form_2), moving(to_form_2_by_hand)},
      {"moving to form 1", of.plain_form_2, moving(library_to_form_1), moving(to_form_1_by_hand)},
  };
}

// What is put at the front of a buffer that is long enough for any file.
template <class Put>
Bytes whole(Put put) {
  Bytes file(RYEBADGER_LONGEST_FILE);
  const Written answer = put(file);
  file.resize(answer[2]);
  return file;
}

Filed filed(const Cage& plain) {
  const Cage creased = with_creases(plain, {1, 2, 3, 4, 5, 6, 7, 8, 9, 10});
  const Bytes plain_form_2 = whole([&](Bytes& file) { return library_write_form_2(plain, Weight::kShort, file); });
  return {creased, whole([&](Bytes& file) { return library_write_form_2(creased, Weight::kPaper, file); }), plain_form_2,
          whole([&](Bytes& file) { return library_to_form_1(plain_form_2, file); })};
}

// Whether it is done, once every number, cell and byte is found to be the library's.
bool compared(const Operation& operation, const Bytes& file) {
  Lent ours = lent(), others = ours;
  operation.ours(file, ours), operation.by_hand(file, others);
  if (!(ours == others)) throw std::runtime_error(std::string(operation.name) + ": differs from the library's");
  return ours.answer[0] == RYEBADGER_DONE;
}

// The file itself, and with a cut or a changed byte here and there, of which most are refused.
void compare(const Operation& operation) {
  constexpr size_t kStep = 97;
  if (!compared(operation, operation.file)) throw std::runtime_error(std::string(operation.name) + ": a refusal");
  for (size_t at = 0; at < operation.file.size(); at += at < 2 * kStep ? 1 : kStep) {
    Bytes changed = operation.file;
    changed[at] ^= 1;
    compared(operation, changed);
    changed[at] ^= 0x81;
    compared(operation, changed);
    changed.resize(at);
    compared(operation, changed);
  }
}

// Best of the rounds of the library and of the same by hand, in turn.
std::array<double, 2> best_times(const Operation& operation) {
  Lent left = lent();
  std::array<double, 2> best{HUGE_VAL, HUGE_VAL};
  for (int round = 0; round < kRounds; ++round)
    for (const bool ours : {true, false}) {
      const Call& call = ours ? operation.ours : operation.by_hand;
      double& time = best[!ours];
      time = std::min(time, seconds_of_each(kCalls, [&] { call(operation.file, left); }));
    }
  return best;
}

}  // namespace

void print_files() {
  std::printf("\nCage files, H 3,072, best of %d rounds in turn, process time; ratio: C++ by hand over Ryebadger\n", kRounds);
  std::printf("%-38s %10s %10s %7s %10s %10s %7s\n", "", "closed us", "by hand", "ratio", "open us", "by hand", "ratio");
  const Filed closed = filed(torus(32)), open = filed(sheet(32));
  const std::vector<Operation> of_closed = operations(closed), of_open = operations(open);
  for (size_t i = 0; i < of_closed.size(); ++i) {
    std::printf("%-38s", of_closed[i].name);
    for (const Operation& operation : {of_closed[i], of_open[i]}) {
      compare(operation);
      const auto [ours, by_hand] = best_times(operation);
      std::printf(" %10.1f %10.1f %7.2f", 1e6 * ours, 1e6 * by_hand, by_hand / ours);
    }
    std::printf("\n");
  }
  std::printf("every number, cell and byte by hand is the library's, here and on files that are cut and changed\n");
}
