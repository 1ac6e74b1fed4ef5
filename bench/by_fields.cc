// Cage files by hand: every field is looked at where it stands, and a move copies the fields that both forms have.
#include <cstring>

#include "checked.h"
#include "files.h"

namespace {

constexpr size_t kHead = 3;
constexpr uint16_t kNoTwinInFile = UINT16_MAX;
enum Tag : uint8_t { kFirst = 0x10, kTwins = 0x20, kVerts, kEdges, kCreases, kPoints = 0x30, kWeight, kEnd = 0x7f };

Written not_written(Verdict verdict) { return {verdict.number, verdict.place}; }

uint16_t number_at(const uint8_t* at) {
  uint16_t number;
  std::memcpy(&number, at, sizeof number);
  return number;
}

void put_number(uint8_t* at, size_t number) {
  const uint16_t bits = uint16_t(number);
  std::memcpy(at, &bits, sizeof bits);
}

// Where a file's payloads stand, and what is told of them. Only the twins are taken out.
struct Parsed {
  uint32_t form, weight;
  Counts counts;
  const uint8_t *verts, *edges, *creases, *points;
  uint32_t twin[kMost];
};

// Fields one after the other, each of the tag and the length that it has to have.
struct Fields {
  const Bytes& file;
  size_t head = 0;  // of the next one
  Verdict verdict;

  const uint8_t* take(uint8_t tag, size_t length) {
    const uint8_t* at = file.data() + head;
    const size_t left = file.size() - head;
    const bool wrong = left >= kHead && (at[0] != tag || number_at(at + 1) != length);
    if (wrong || left < kHead + length) {
      verdict = {wrong ? uint32_t(RYEBADGER_FIELD) : uint32_t(RYEBADGER_SHORT), uint32_t(head)};
      return nullptr;
    }
    head += kHead + length;
    return at + kHead;
  }
};

// A file of a form from the lowest to the highest: reading's refusals but 9.
Verdict parse(const Bytes& file, uint32_t lowest_form, uint32_t highest_form, Parsed& to) {
  Fields fields{file, 0, {}};
  const uint8_t* first = fields.take(kFirst, 6);
  if (!first) return fields.verdict;
  const uint32_t form = number_at(first), h = number_at(first + 2), v = number_at(first + 4);
  if (form < lowest_form || form > highest_form) return {RYEBADGER_FIELD, 0};
  if (h == 0 || h % 3 != 0) return {RYEBADGER_SHAPE, 0};
  if (h > RYEBADGER_MOST_HALFEDGES || v > RYEBADGER_MOST_VERTICES) return {RYEBADGER_LIMIT, 0};
  to.form = form, to.weight = 0, to.counts = {h, 0, v};
  const uint8_t* twins = fields.take(kTwins, 2 * h);
  if (!twins || !(to.verts = fields.take(kVerts, 2 * h)) || !(to.edges = fields.take(kEdges, 2 * h))) return fields.verdict;
  for (uint32_t i = 0; i < h; ++i) {
    const uint16_t t = number_at(twins + 2 * i);
    to.twin[i] = t == kNoTwinInFile ? kNoTwin : t;
  }
  if (form == RYEBADGER_FORM_2) {
    const uint32_t bad = first_bad_twin(to.twin, h);
    if (bad < h) return {RYEBADGER_TWIN, bad};
    to.counts.edges = count_edges(to.twin, h);
    if (!(to.creases = fields.take(kCreases, to.counts.edges))) return fields.verdict;
  }
  if (!(to.points = fields.take(kPoints, 12 * v))) return fields.verdict;
  if (form == RYEBADGER_FORM_2) {
    const uint32_t head = uint32_t(fields.head);
    const uint8_t* weight = fields.take(kWeight, 1);
    if (!weight) return fields.verdict;
    if (*weight > RYEBADGER_PAPER_WEIGHT) return {RYEBADGER_FIELD, head};
    to.weight = *weight;
  }
  if (!fields.take(kEnd, 0)) return fields.verdict;
  if (fields.head < file.size()) return {RYEBADGER_EXTRA, uint32_t(fields.head)};
  return {};
}

void widen(const uint8_t* from, uint32_t* to, uint32_t cells) {
  for (uint32_t i = 0; i < cells; ++i) to[i] = number_at(from + 2 * i);
}

// The tables of a file, but for its twins, where they are lent.
void put_tables(const Parsed& of, const Room& lent) {
  widen(of.verts, lent.vert, of.counts.halfedges);
  widen(of.edges, lent.edge, of.counts.halfedges);
  std::memcpy(lent.points, of.points, 12 * size_t(of.counts.vertices));
  if (of.form == RYEBADGER_FORM_2) std::memcpy(lent.creases, of.creases, of.counts.edges);
}

// The check of the cage that a file holds, once its twins have passed. Form 1 has creases of 0.
Verdict check_held(const Parsed& of) {
  uint32_t vert[kMost], edge[kMost];
  int32_t points[3 * RYEBADGER_MOST_VERTICES];
  uint8_t creases[kMost] = {};
  put_tables(of, {nullptr, vert, edge, points, creases});
  return check_from_4({of.counts, of.twin, vert, edge, points, creases});
}

size_t length_of(uint32_t form, Counts n) {
  const size_t of_form_1 = 24 + 6 * size_t(n.halfedges) + 12 * size_t(n.vertices);
  return form == RYEBADGER_FORM_1 ? of_form_1 : of_form_1 + 7 + n.edges;
}

// Puts a field's head, and gives where its payload goes.
uint8_t* put_head(uint8_t*& at, uint8_t tag, size_t length) {
  at[0] = tag;
  put_number(at + 1, length);
  uint8_t* payload = at + kHead;
  at = payload + length;
  return payload;
}

void put_first(uint8_t*& at, uint32_t form, Counts n) {
  uint8_t* payload = put_head(at, kFirst, 6);
  put_number(payload, form), put_number(payload + 2, n.halfedges), put_number(payload + 4, n.vertices);
}

void put_numbers(uint8_t*& at, uint8_t tag, const std::vector<uint32_t>& cells) {
  uint8_t* payload = put_head(at, tag, 2 * cells.size());
  for (size_t i = 0; i < cells.size(); ++i) put_number(payload + 2 * i, cells[i]);
}

// The fields from the creases on.
void put_rest(uint8_t* at, Counts n, const uint8_t* creases, const void* points, uint32_t weight) {
  std::memcpy(put_head(at, kCreases, n.edges), creases, n.edges);
  std::memcpy(put_head(at, kPoints, 12 * size_t(n.vertices)), points, 12 * size_t(n.vertices));
  *put_head(at, kWeight, 1) = uint8_t(weight);
  put_head(at, kEnd, 0);
}

// The first field, and the three tables as they stand in another file.
uint8_t* copy_tables(uint32_t form, const Parsed& of, uint8_t* at) {
  put_first(at, form, of.counts);
  const uint8_t* end = of.edges + 2 * of.counts.halfedges;
  const size_t length = 3 * (kHead + 2 * size_t(of.counts.halfedges));
  std::memcpy(at, end - length, length);
  return at + length;
}

}  // namespace

FileRead read_by_hand(const Bytes& file, Tables& lent) {
  Parsed of;
  if (const Verdict verdict = parse(file, RYEBADGER_FORM_1, RYEBADGER_FORM_2, of))
    return refused(verdict.number, verdict.place);
  const auto [h, e, v] = of.counts;
  if (lent.twin.size() < h) return refused(RYEBADGER_ROOM, RYEBADGER_TWIN_TABLE);
  if (lent.vert.size() < h) return refused(RYEBADGER_ROOM, RYEBADGER_VERT_TABLE);
  if (lent.edge.size() < h) return refused(RYEBADGER_ROOM, RYEBADGER_EDGE_TABLE);
  if (lent.points.size() < 3 * size_t(v)) return refused(RYEBADGER_ROOM, RYEBADGER_POINTS_TABLE);
  if (lent.creases.size() < e) return refused(RYEBADGER_ROOM, RYEBADGER_CREASE_TABLE);
  std::copy_n(of.twin, h, lent.twin.begin());
  put_tables(of, {nullptr, lent.vert.data(), lent.edge.data(), lent.points.data(), lent.creases.data()});
  return {RYEBADGER_DONE, 0, of.form, h, v, e, of.weight};
}

Written write_form_2_by_hand(const Cage& cage, Weight weight, Bytes& lent) {
  Counts n;
  if (const Verdict verdict = check(cage, n)) return not_written(verdict);
  const size_t length = length_of(RYEBADGER_FORM_2, n);
  if (lent.size() < length) return {RYEBADGER_ROOM, RYEBADGER_CAGE_FILE};
  uint8_t* at = lent.data();
  put_first(at, RYEBADGER_FORM_2, n);
  put_numbers(at, kTwins, cage.twin), put_numbers(at, kVerts, cage.vert), put_numbers(at, kEdges, cage.edge);
  put_rest(at, n, cage.creases.data(), cage.points.data(), weight == Weight::kPaper);
  return {RYEBADGER_DONE, 0, uint32_t(length)};
}

Written to_form_2_by_hand(const Bytes& file, Bytes& lent) {
  Parsed of;
  if (const Verdict verdict = parse(file, RYEBADGER_FORM_1, RYEBADGER_FORM_1, of)) return not_written(verdict);
  const uint32_t twin = first_bad_twin(of.twin, of.counts.halfedges);
  if (twin < of.counts.halfedges) return {RYEBADGER_TWIN, twin};
  of.counts.edges = count_edges(of.twin, of.counts.halfedges);
  if (const Verdict verdict = check_held(of)) return not_written(verdict);
  const size_t length = length_of(RYEBADGER_FORM_2, of.counts);
  if (lent.size() < length) return {RYEBADGER_ROOM, RYEBADGER_CAGE_FILE};
  const uint8_t creases[kMost] = {};
  put_rest(copy_tables(RYEBADGER_FORM_2, of, lent.data()), of.counts, creases, of.points, RYEBADGER_SHORT_WEIGHT);
  return {RYEBADGER_DONE, 0, uint32_t(length)};
}

Written to_form_1_by_hand(const Bytes& file, Bytes& lent) {
  Parsed of;
  if (const Verdict verdict = parse(file, RYEBADGER_FORM_2, RYEBADGER_FORM_2, of)) return not_written(verdict);
  if (const Verdict verdict = check_held(of)) return not_written(verdict);
  const auto is_0 = [](uint8_t number) { return number == 0; };
  if (of.weight != 0 || !std::all_of(of.creases, of.creases + of.counts.edges, is_0)) return {RYEBADGER_NOT_OLD, 0};
  const size_t length = length_of(RYEBADGER_FORM_1, of.counts), points = kHead + 12 * size_t(of.counts.vertices);
  if (lent.size() < length) return {RYEBADGER_ROOM, RYEBADGER_CAGE_FILE};
  uint8_t* at = copy_tables(RYEBADGER_FORM_1, of, lent.data());
  std::memcpy(at, of.points - kHead, points);
  put_head(at += points, kEnd, 0);
  return {RYEBADGER_DONE, 0, uint32_t(length)};
}
