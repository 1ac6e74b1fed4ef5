/* Ryebadger for C and C++: check, quote, refine, read and write a triangle cage, tell the cells of one halfedge at any level,
 * say why a cage is sent back, move its file from one form to the other, build a cage from plain triangles, or write any level
 * as STL. The words, numbers and tables are those of document 01, the scope of the build, and of document 02, its requests;
 * what each operation promises here is proved of it.
 *
 * The archive to link is target/host/libryebadger.a, which host/build makes.
 *
 * A cage is five tables. TWIN, VERT and EDGE hold a number for each halfedge, points x, y, z of each vertex in 1/1024 mm,
 * creases a number for each edge: how many levels it stays sharp for, 0 to RYEBADGER_MOST_CREASE, and 0 on a border edge. A
 * cage without creases has a table of zeros, as many as ryebadger_edges tells. A table is handed over as a pointer to its
 * first cell and its length in cells. Tables that are only read are `const`; the others are lent, to be written.
 *
 * An operation answers for tables of any length with any cells. It uses no memory but its stack and what it is lent, and
 * keeps nothing, so that any number of threads may call at once.
 *
 * The answer is an array of its own for each operation, of the length that stands in its declaration. All of it is written:
 *   answer[0]  the number: 0 is done, any other is the refusal of that number
 *   answer[1]  the place: 0 when done
 *   the rest   the values: all 0 on a refusal
 * Only ryebadger_edges, which never refuses, has neither number nor place, and only ryebadger_why has values on a refusal. The
 * cells of an answer have 32 bits, and only those of ryebadger_halfedge 64, since its place may be any number of 64 bits. A
 * refusal alters nothing but the answer. Done, every cell that the operation does not promise to write is untouched.
 *
 * What the caller has to see to, since no operation can check it:
 *   - A pointer is never null and is aligned for its cells, also with length 0. It need not point at memory then.
 *   - As many cells as the length says can be read, and written where they are lent.
 *   - What is lent overlaps nothing else that is handed over, and neither does the answer. Tables that are only read may
 *     overlap each other. */
#ifndef RYEBADGER_H
#define RYEBADGER_H

#include <stddef.h>
#include <stdint.h>

#ifdef __cplusplus
extern "C" {
#endif

/* The TWIN cell of a halfedge that has no twin. */
#define RYEBADGER_MARKER UINT32_C(4294967295)

/* The limits: H, V, the depth and the number of a crease at most these, each coordinate from minus the last of them to it. */
#define RYEBADGER_MOST_HALFEDGES 3072
#define RYEBADGER_MOST_VERTICES 2048
#define RYEBADGER_MOST_DEPTH 6
#define RYEBADGER_MOST_CREASE 10
#define RYEBADGER_MOST_COORDINATE 1048576

/* The levels of the deepest refinement, level 0 among them. */
#define RYEBADGER_LEVELS 7

/* The forms of a cage file: form 2 has a crease for each edge and a weight, for which form 1 has no place. */
enum ryebadger_form { RYEBADGER_FORM_1 = 1, RYEBADGER_FORM_2 = 2 };

/* The bytes of the longest cage file of each form that is read, and of either. */
#define RYEBADGER_LONGEST_FORM_1 43032
#define RYEBADGER_LONGEST_FORM_2 46111
#define RYEBADGER_LONGEST_FILE RYEBADGER_LONGEST_FORM_2

/* The longest VERT table that is written as STL, which is that of level 6 of the largest cage, and the bytes of an STL file of
 * so many triangles. */
#define RYEBADGER_LONGEST_TABLE 12582912
#define RYEBADGER_STL_LENGTH(triangles) (84 + 50 * (size_t)(triangles))

/* The weight of each spoke of an inner vertex, which is one on no border: document 01's short one, 3/(8n) with n corners, or
 * the paper's, which is that of source document 002's rule V.3 to the nearest 2^24th. Any other number than 0 is taken as
 * the paper's. */
enum ryebadger_weight { RYEBADGER_SHORT_WEIGHT = 0, RYEBADGER_PAPER_WEIGHT = 1 };

/* The most corners that an inner vertex may have with the paper's weight. */
#define RYEBADGER_MOST_CORNERS 32

/* The numbers of an answer, by the documents' names, with the place that goes with each. Checks run in the order of their
 * numbers, except in reading, in the moves and in building, and except that the length of the creases is looked at after 3 and
 * before 4, that 15 comes after 6 and before 7, and 14 after 7 and before 8; the first that holds is the answer. */
enum ryebadger_number {
    RYEBADGER_DONE = 0,             /* 0 */
    RYEBADGER_SHAPE = 1,            /* lengths or counts that no cage has: 0 */
    RYEBADGER_LIMIT = 2,            /* H, V or the depth is above its limit: 0 */
    RYEBADGER_TWIN = 3,             /* a twin that is none: the lowest such halfedge */
    RYEBADGER_VERTEX = 4,           /* a vertex out of range, or not as the next or the twin has it: the lowest such halfedge */
    RYEBADGER_UNUSED = 5,           /* a vertex on no halfedge: the lowest such vertex */
    RYEBADGER_EDGE = 6,             /* an edge out of range, unlike the twin's or carried elsewhere: the lowest such halfedge */
    RYEBADGER_FAN = 7,              /* corners at a vertex that are not one fan: the lowest such vertex */
    RYEBADGER_POINT = 8,            /* a coordinate out of range: the lowest such index in the points */
    RYEBADGER_ROOM = 9,             /* a lent table is too short: the first, by its place, which enum ryebadger_place has */
    RYEBADGER_SHORT = 10,           /* the file ends before a field's head and payload are whole: the offset of that head */
    RYEBADGER_FIELD = 11,           /* wrong tag, length, form number or weight: the offset of that head */
    RYEBADGER_EXTRA = 12,           /* bytes after the end field: the offset of the first */
    RYEBADGER_DOUBLED = 13,         /* two halfedges from the same vertex to the same one: the lowest that has such a double */
    RYEBADGER_VALENCE = 14,         /* an inner vertex of too many corners for the paper's weight: the lowest such vertex */
    RYEBADGER_CREASE = 15,          /* a crease out of range, or on a border edge and not 0: the lowest such edge */
    RYEBADGER_NOT_OLD = 16,         /* a crease or a weight that is not 0, in a file to be moved to form 1: 0 */
    RYEBADGER_NO_SUCH_HALFEDGE = 17 /* a halfedge that the level does not have: that number */
};

/* The places of RYEBADGER_ROOM: what is lent, in the order in which it is looked at. */
enum ryebadger_place {
    RYEBADGER_TWIN_TABLE = 1,
    RYEBADGER_VERT_TABLE = 2,
    RYEBADGER_EDGE_TABLE = 3,
    RYEBADGER_POINTS_TABLE = 4,
    RYEBADGER_CAGE_FILE = 5,
    RYEBADGER_STL_FILE = 6,
    RYEBADGER_CREASE_TABLE = 7
};

/* The clauses of the numbers 3 to 7, counted from 1 in each, with the number they belong to and what is shown of them at the
 * place h, where t is TWIN(h). Of the three numbers that are shown those not named are 0. */
enum ryebadger_clause {
    RYEBADGER_NO_CLAUSE = 0,          /* accepted, or a number that has no clauses: none */
    RYEBADGER_TWIN_PAST_TABLE = 1,    /* 3: t, H */
    RYEBADGER_TWIN_ITSELF = 2,        /* 3: t */
    RYEBADGER_TWIN_NOT_RETURNED = 3,  /* 3: t, TWIN(t), which may be the marker */
    RYEBADGER_VERTEX_PAST_POINTS = 1, /* 4: VERT(h), V */
    RYEBADGER_ENDS_ALIKE = 2,         /* 4: VERT(h), NEXT(h), which has the same vertex */
    RYEBADGER_TWIN_ENDS_DIFFER = 3,   /* 4: t, VERT(t), VERT(NEXT(h)) */
    RYEBADGER_VERTEX_UNUSED = 1,      /* 5: the vertex */
    RYEBADGER_EDGE_PAST_COUNT = 1,    /* 6: EDGE(h), E */
    RYEBADGER_EDGE_DIFFERS = 2,       /* 6: t, EDGE(h), EDGE(t) */
    RYEBADGER_EDGE_SHARED = 3,        /* 6: EDGE(h), the lowest other halfedge than h and t that has it */
    RYEBADGER_NOT_JOINED = 1          /* 7: the lowest corner at the vertex, the lowest there that is not joined to it */
};

/* The lengths of the answers. Building answers as the cage check does, refining as the count question, the moves and writing
 * STL as writing a cage file. */
#define RYEBADGER_CHECK_ANSWER 7
#define RYEBADGER_WHY_ANSWER 6
#define RYEBADGER_EDGES_ANSWER 1
#define RYEBADGER_COUNTS_ANSWER 26
#define RYEBADGER_HALFEDGE_ANSWER 5
#define RYEBADGER_CORNERS_ANSWER 5
#define RYEBADGER_READ_ANSWER 7
#define RYEBADGER_WRITE_ANSWER 3

/* Where the answer of ryebadger_why has its values: the clause, and the first of the three numbers that show it. */
enum ryebadger_why_values { RYEBADGER_AT_CLAUSE = 2, RYEBADGER_AT_SHOWN = 3 };

/* Where the answer of the count question, which refining gives too, has its values: H, E and V of level 0, those of level d
 * standing d cells further, and the room, which is the sums of H, of V and of E over levels 0 to the depth. */
enum ryebadger_counts_values {
    RYEBADGER_AT_H = 2,
    RYEBADGER_AT_E = 9,
    RYEBADGER_AT_V = 16,
    RYEBADGER_AT_H_ROOM = 23,
    RYEBADGER_AT_V_ROOM = 24,
    RYEBADGER_AT_E_ROOM = 25
};

/* Where the answer of ryebadger_halfedge has its values: the three cells of the halfedge. */
enum ryebadger_halfedge_values {
    RYEBADGER_AT_HALFEDGE_TWIN = 2,
    RYEBADGER_AT_HALFEDGE_VERT = 3,
    RYEBADGER_AT_HALFEDGE_EDGE = 4
};

/* Where the answer of reading has its values: the form, H, V and E, and the weight, each by its number. */
enum ryebadger_read_values {
    RYEBADGER_AT_FILE_FORM = 2,
    RYEBADGER_AT_FILE_H = 3,
    RYEBADGER_AT_FILE_V = 4,
    RYEBADGER_AT_FILE_E = 5,
    RYEBADGER_AT_FILE_WEIGHT = 6
};

/* E of any TWIN table, which is how long the creases of its cage have to be: how many halfedges have no twin or a twin with a
 * lower number. It is no check, and E is never more than the table's length. Of so long a table that E is above 4294967295 it
 * tells 4294967295. */
void ryebadger_edges(const uint32_t *twin, size_t twin_length, uint32_t answer[RYEBADGER_EDGES_ANSWER]);

/* The cage check: refusals 1 to 8 and, after 6 and before 7, 15. Done, the values are H, E, F, V and B of the cage. V is a
 * third of the points' length, E and B are counted. */
void ryebadger_check(const uint32_t *twin, size_t twin_length, const uint32_t *vert, size_t vert_length,
                     const uint32_t *edge, size_t edge_length, const int32_t *points, size_t points_length,
                     const uint8_t *creases, size_t creases_length, uint32_t answer[RYEBADGER_CHECK_ANSWER]);

/* Why the cage check sends a cage back: number and place are the check's. The values stand where enum ryebadger_why_values has
 * them. They are the first clause of enum ryebadger_clause that holds at the place, in the order of their numbers, and the
 * three numbers that show it; all 0 where the cage is accepted or the number is none of 3 to 7. */
void ryebadger_why(const uint32_t *twin, size_t twin_length, const uint32_t *vert, size_t vert_length,
                   const uint32_t *edge, size_t edge_length, const int32_t *points, size_t points_length,
                   const uint8_t *creases, size_t creases_length, uint32_t answer[RYEBADGER_WHY_ANSWER]);

/* The count question: refusals 1 and 2. Done, the values are H of the seven levels, E of them and V of them, each 0 past the
 * depth asked, then the room in halfedges, in vertices and in edges. */
void ryebadger_counts(uint64_t halfedges, uint64_t edges, uint64_t vertices, uint64_t depth,
                      uint32_t answer[RYEBADGER_COUNTS_ANSWER]);

/* Refining with a weight of enum ryebadger_weight: the cage check's refusals in its order, 9, and with the paper's weight, at
 * any depth, 14 after 7 and before 8. Done, levels 0 to the depth stand end to end from the front of the five lent tables,
 * level 0 being the cage, and the values are the count question's for this cage and depth. Needed is the room in halfedges
 * in each of the first three lent tables, three times the room in vertices in the points and the room in edges in the
 * creases; cells past that are untouched.
 *
 * The creases of a level are its border edges and those that have a number above 0. Each level takes one from a number, down
 * to 0, for both halves of the edge; an edge that comes to lie across a triangle starts with 0. The point of an inner crease
 * is the middle of its ends. A vertex moves by how many creases it has: by none or one as if it had none, by two as a border
 * vertex between their far ends, by more not at all.
 *
 * A coordinate is rounded once per level, halves away from zero. So left and right come out as mirrors: negating every x of
 * the cage's points, or every y or z, negates exactly those numbers at every level and changes nothing else. */
void ryebadger_refine(const uint32_t *twin, size_t twin_length, const uint32_t *vert, size_t vert_length,
                      const uint32_t *edge, size_t edge_length, const int32_t *points, size_t points_length,
                      const uint8_t *creases, size_t creases_length, uint64_t depth, uint32_t weight,
                      uint32_t *lent_twin, size_t lent_twin_length, uint32_t *lent_vert, size_t lent_vert_length,
                      uint32_t *lent_edge, size_t lent_edge_length, int32_t *lent_points, size_t lent_points_length,
                      uint8_t *lent_creases, size_t lent_creases_length, uint32_t answer[RYEBADGER_COUNTS_ANSWER]);

/* One halfedge of the level at a depth, with no table lent: refusals 1 to 7 on the three tables and V, which is a number here,
 * with the depth limit in 2; then 17, where the halfedge is not below H of that level. Points and creases have no part in it.
 * Done, the values stand where enum ryebadger_halfedge_values has them. They are TWIN, VERT and EDGE of this halfedge: the
 * cells that refining to this depth or deeper would write for it in that level. TWIN is RYEBADGER_MARKER where it has no twin.
 * Once the check is done and E counted, it climbs to the cage through one halfedge of each level: its work then goes by the
 * depth alone. */
void ryebadger_halfedge(const uint32_t *twin, size_t twin_length, const uint32_t *vert, size_t vert_length,
                        const uint32_t *edge, size_t edge_length, uint64_t vertices, uint64_t depth, uint64_t halfedge,
                        uint64_t answer[RYEBADGER_HALFEDGE_ANSWER]);

/* The corner question: refusal 1. Done, the values are the triangle's three corner numbers, as stored in the table. */
void ryebadger_corners(const uint32_t *vert, size_t vert_length, uint64_t triangle,
                       uint32_t answer[RYEBADGER_CORNERS_ANSWER]);

/* Reading a cage file of either form: refusals 1, 2 and 9 to 12, and of form 2 also 3, in the order in which the file is read,
 * 9 last. The creases of form 2 are as many as its twins make edges, so 3 comes once EDGE is whole and before the creases.
 * Done, the values stand where enum ryebadger_read_values has them, and the cage stands at the front of the lent tables.
 * Needed is H in each of the first three, 3V in the points and, of form 2, E in the creases; cells past that are untouched.
 * Of form 1 no crease is written, and E and the weight are told as 0: its cage has a crease of 0 for each edge, as many as
 * ryebadger_edges tells, and the short weight. No other check has been run: that is for ryebadger_check, ryebadger_refine,
 * the two that write a cage file, and the moves. */
void ryebadger_read(const uint8_t *file, size_t file_length, uint32_t *lent_twin, size_t lent_twin_length,
                    uint32_t *lent_vert, size_t lent_vert_length, uint32_t *lent_edge, size_t lent_edge_length,
                    int32_t *lent_points, size_t lent_points_length, uint8_t *lent_creases, size_t lent_creases_length,
                    uint32_t answer[RYEBADGER_READ_ANSWER]);

/* Writing a cage file of form 1, from a cage without creases: refusals 1 to 9, where 9 has place 5. Done, the value is the
 * file's length, which is 24 + 6H + 12V, and the file stands at the front of the lent buffer; bytes past it are untouched. */
void ryebadger_write(const uint32_t *twin, size_t twin_length, const uint32_t *vert, size_t vert_length,
                     const uint32_t *edge, size_t edge_length, const int32_t *points, size_t points_length,
                     uint8_t *lent_file, size_t lent_file_length, uint32_t answer[RYEBADGER_WRITE_ANSWER]);

/* Writing a cage file of form 2, with the cage's creases and a weight of enum ryebadger_weight: the cage check's refusals in
 * its order, then 9, with place 5. 14, which is for refining, is not among them. Done, the value is the file's length, which
 * is 31 + 6H + 12V + E, and the file stands at the front of the lent buffer; bytes past it are untouched. */
void ryebadger_write_form_2(const uint32_t *twin, size_t twin_length, const uint32_t *vert, size_t vert_length,
                            const uint32_t *edge, size_t edge_length, const int32_t *points, size_t points_length,
                            const uint8_t *creases, size_t creases_length, uint32_t weight, uint8_t *lent_file,
                            size_t lent_file_length, uint32_t answer[RYEBADGER_WRITE_ANSWER]);

/* Moving a cage file to the other form: reading's refusals but 9, where a file that is not of the form to start from is
 * refused as one of no form, by 11 at 0; then the cage check's, in its order; to form 1 also 16, where a crease or the weight is
 * not 0; then 9, with place 5. Done, the value is the new file's length, and the new file stands at the front of the lent
 * buffer; bytes past it are untouched. To form 2 each edge gets a crease of 0, and the file the short weight. A file that has
 * been moved can be moved back, and comes out as it was, byte for byte. */
void ryebadger_to_form_2(const uint8_t *file, size_t file_length, uint8_t *lent_file, size_t lent_file_length,
                         uint32_t answer[RYEBADGER_WRITE_ANSWER]);
void ryebadger_to_form_1(const uint8_t *file, size_t file_length, uint8_t *lent_file, size_t lent_file_length,
                         uint32_t answer[RYEBADGER_WRITE_ANSWER]);

/* Building a cage from plain triangles, which are VERT, a triangle's three corner numbers after another's, and the points.
 * Refusals 1, 2, 13, 4, 5, 7, 8 and 9, in this order; 9 has place 1 or 3. Done, TWIN and EDGE stand at the front of the
 * lent tables. With VERT, the points and creases of 0 they are a cage that the check accepts, and the values are the
 * check's. Two different halfedges are twins exactly when they run between the same two vertices the opposite way, and edges
 * are numbered in the order of their lowest halfedges. Needed is H in each lent table; cells past that are untouched. It
 * takes less than 256 KB of stack, and time that goes by H and V, whatever the numbers are. */
void ryebadger_build(const uint32_t *vert, size_t vert_length, const int32_t *points, size_t points_length,
                     uint32_t *lent_twin, size_t lent_twin_length, uint32_t *lent_edge, size_t lent_edge_length,
                     uint32_t answer[RYEBADGER_CHECK_ANSWER]);

/* Writing any level as binary STL, from its VERT table and its points. Refusals 1, where VERT is empty or a length is no
 * multiple of 3; 2, where VERT is longer than RYEBADGER_LONGEST_TABLE; 4, where a corner is past the points; 8, whose place
 * is 4294967295 also where the index is higher; and 9, with place 6. Nothing else of the level is checked. Done, the value
 * is the STL file's length, which is 84 + 50F, and the file stands at the front of the lent buffer; bytes past it are
 * untouched. The file is 80 zero bytes, F in 32 bits, then for each triangle twelve floats of 32 bits, which are a normal of
 * zero and the three corners as stored, and a zero word of 16 bits, all little-endian. A coordinate is its units divided by
 * 1024, exactly. */
void ryebadger_write_stl(const uint32_t *vert, size_t vert_length, const int32_t *points, size_t points_length,
                         uint8_t *lent_file, size_t lent_file_length, uint32_t answer[RYEBADGER_WRITE_ANSWER]);

#ifdef __cplusplus
}
#endif

#endif
