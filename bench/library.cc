#include "library.h"

#include <stdexcept>
#include <string>

#include "ryebadger.h"

namespace {

void expect_done(const char* operation, const uint32_t* answer) {
  if (answer[0] != RYEBADGER_DONE)
    throw std::runtime_error(std::string(operation) + " refuses: " + std::to_string(answer[0]) + " at " +
                             std::to_string(answer[1]));
}

uint32_t number_of(Weight weight) { return weight == Weight::kShort ? RYEBADGER_SHORT_WEIGHT : RYEBADGER_PAPER_WEIGHT; }

}  // namespace

// A slice is a pointer and a length.
#define CELLS(table) (table).data(), (table).size()

void library_refine(const Cage& cage, int depth, Weight weight, Tables& lent) {
  uint32_t answer[RYEBADGER_COUNTS_ANSWER];
  ryebadger_refine(CELLS(cage.twin), CELLS(cage.vert), CELLS(cage.edge), CELLS(cage.points), CELLS(cage.creases),
                   uint64_t(depth), number_of(weight), CELLS(lent.twin), CELLS(lent.vert), CELLS(lent.edge),
                   CELLS(lent.points), CELLS(lent.creases), answer);
  expect_done("refining", answer);
}

void library_check(const Cage& cage) {
  uint32_t answer[RYEBADGER_CHECK_ANSWER];
  ryebadger_check(CELLS(cage.twin), CELLS(cage.vert), CELLS(cage.edge), CELLS(cage.points), CELLS(cage.creases), answer);
  expect_done("the check", answer);
}

Why library_why(const Cage& cage) {
  Why answer;
  static_assert(std::tuple_size<Why>::value == RYEBADGER_WHY_ANSWER, "saying why");
  ryebadger_why(CELLS(cage.twin), CELLS(cage.vert), CELLS(cage.edge), CELLS(cage.points), CELLS(cage.creases), answer.data());
  return answer;
}

Halfedge library_halfedge(const Cage& cage, uint64_t depth, uint64_t halfedge) {
  Halfedge answer;
  static_assert(std::tuple_size<Halfedge>::value == RYEBADGER_HALFEDGE_ANSWER, "one halfedge");
  ryebadger_halfedge(CELLS(cage.twin), CELLS(cage.vert), CELLS(cage.edge), cage.points.size() / 3, depth, halfedge,
                     answer.data());
  return answer;
}

void library_write(const Cage& cage, Bytes& file) {
  uint32_t answer[RYEBADGER_WRITE_ANSWER];
  ryebadger_write(CELLS(cage.twin), CELLS(cage.vert), CELLS(cage.edge), CELLS(cage.points), CELLS(file), answer);
  expect_done("writing", answer);
}

FileRead library_read(const Bytes& file, Tables& lent) {
  FileRead answer;
  static_assert(std::tuple_size<FileRead>::value == RYEBADGER_READ_ANSWER, "reading's answer");
  ryebadger_read(CELLS(file), CELLS(lent.twin), CELLS(lent.vert), CELLS(lent.edge), CELLS(lent.points), CELLS(lent.creases),
                 answer.data());
  return answer;
}

Written library_write_form_2(const Cage& cage, Weight weight, Bytes& file) {
  Written answer;
  ryebadger_write_form_2(CELLS(cage.twin), CELLS(cage.vert), CELLS(cage.edge), CELLS(cage.points), CELLS(cage.creases),
                         number_of(weight), CELLS(file), answer.data());
  return answer;
}

Written library_to_form_2(const Bytes& file, Bytes& lent) {
  Written answer;
  ryebadger_to_form_2(CELLS(file), CELLS(lent), answer.data());
  return answer;
}

Written library_to_form_1(const Bytes& file, Bytes& lent) {
  Written answer;
  ryebadger_to_form_1(CELLS(file), CELLS(lent), answer.data());
  return answer;
}

Answer library_build(const Soup& soup, Joins& lent) {
  Answer answer;
  static_assert(std::tuple_size<Answer>::value == RYEBADGER_CHECK_ANSWER, "building answers as the check does");
  ryebadger_build(CELLS(soup.vert), CELLS(soup.points), CELLS(lent.twin), CELLS(lent.edge), answer.data());
  return answer;
}

Written library_write_stl(const Soup& level, std::vector<uint8_t>& file) {
  Written answer;
  static_assert(std::tuple_size<Written>::value == RYEBADGER_WRITE_ANSWER, "writing STL answers as writing does");
  ryebadger_write_stl(CELLS(level.vert), CELLS(level.points), CELLS(file), answer.data());
  expect_done("writing STL", answer.data());
  return answer;
}
