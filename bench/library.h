// The proved library's operations on the cages here. A refusal ends the run, as every cage here is valid, but for building's
// and for those of files, of one halfedge and of saying why, which are given wrong ones too.
#pragma once

#include "files.h"
#include "halfedge.h"
#include "soups.h"
#include "weights.h"
#include "why.h"

void library_refine(const Cage& cage, int depth, Weight weight, Tables& lent);
void library_check(const Cage& cage);
Why library_why(const Cage& cage);
Halfedge library_halfedge(const Cage& cage, uint64_t depth, uint64_t halfedge);
void library_write(const Cage& cage, Bytes& file);
FileRead library_read(const Bytes& file, Tables& lent);
Written library_write_form_2(const Cage& cage, Weight weight, Bytes& file);
Written library_to_form_2(const Bytes& file, Bytes& lent);
Written library_to_form_1(const Bytes& file, Bytes& lent);
Answer library_build(const Soup& soup, Joins& lent);
Written library_write_stl(const Soup& level, std::vector<uint8_t>& file);
