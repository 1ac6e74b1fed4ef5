/* example FILE DEPTH short|paper|file [STL [EDGE=NUMBER ...]]: reads a cage file of either form, quotes the room for the
 * depth, refines with the short weight, the paper's or the file's own, and prints H, E and V of each level. With a fourth
 * argument it writes the last level as STL to that file; each further one changes the crease of an edge, which then stays sharp
 * for so many levels.
 * Ends with status 1 where the cage or the depth is refused, and with 2 where anything else is wrong. */
#include "ryebadger.h"

#include <stdio.h>
#include <stdlib.h>
#include <string.h>

static const char usage[] = "usage: example FILE DEPTH short|paper|file [STL [EDGE=NUMBER ...]]";
enum { H = RYEBADGER_MOST_HALFEDGES, V = RYEBADGER_MOST_VERTICES, WEIGHT_OF_FILE = RYEBADGER_PAPER_WEIGHT + 1 };
static uint8_t file[RYEBADGER_LONGEST_FILE + 1]; /* a byte more, so that a longer file is refused as such */
static uint32_t twin[H], vert[H], edge[H], answer[RYEBADGER_COUNTS_ANSWER];
static int32_t points[3 * V];
static uint8_t creases[H]; /* there are at most as many edges as halfedges; a file of form 1 leaves zeros */

static void end_if(int wrong, const char *what) {
    if (wrong) fprintf(stderr, "example: %s\n", what), exit(2);
}

static void end_if_refused(void) {
    if (answer[0] != RYEBADGER_DONE) fprintf(stderr, "refused %u %u\n", answer[0], answer[1]), exit(1);
}

/* The check. What it refuses by a clause is told with that clause and the numbers that show it. */
static void end_if_check_refuses(size_t h, size_t v, size_t e) {
    ryebadger_check(twin, h, vert, h, edge, h, points, 3 * v, creases, e, answer);
    if (answer[0] == RYEBADGER_DONE) return;
    ryebadger_why(twin, h, vert, h, edge, h, points, 3 * v, creases, e, answer);
    if (answer[RYEBADGER_AT_CLAUSE] == RYEBADGER_NO_CLAUSE) end_if_refused();
    const uint32_t *shown = answer + RYEBADGER_AT_SHOWN;
    fprintf(stderr, "refused %u %u by clause %u: %u %u %u\n", answer[0], answer[1], answer[RYEBADGER_AT_CLAUSE], shown[0],
            shown[1], shown[2]);
    exit(1);
}

static uint32_t weight_named(const char *word) {
    if (strcmp(word, "short") == 0) return RYEBADGER_SHORT_WEIGHT;
    if (strcmp(word, "paper") == 0) return RYEBADGER_PAPER_WEIGHT;
    end_if(strcmp(word, "file") != 0, usage);
    return WEIGHT_OF_FILE;
}

static void crease(const char *word, size_t edges) {
    char *rest;
    const unsigned long long e = strtoull(word, &rest, 10);
    end_if(rest == word || *rest != '=', usage);
    const char *number = rest + 1;
    const unsigned long long levels = strtoull(number, &rest, 10);
    end_if(rest == number || *rest != '\0' || levels > UINT8_MAX, usage);
    end_if(e >= edges, "the cage has no edge of that number");
    creases[e] = (uint8_t)levels;
}

static void write_stl(const char *name, const uint32_t *corners, size_t h, const int32_t *places, size_t v) {
    const size_t length = RYEBADGER_STL_LENGTH(h / 3);
    uint8_t *stl = malloc(length);
    end_if(stl == NULL, "there is no memory for the STL");
    ryebadger_write_stl(corners, h, places, 3 * v, /* into */ stl, length, answer);
    end_if_refused();
    FILE *out = fopen(name, "wb");
    end_if(out == NULL, "the STL file cannot be opened");
    const int is_whole = fwrite(stl, 1, length, out) == length;
    end_if(fclose(out) != 0 || !is_whole, "the STL file cannot be written");
}

int main(int argc, char **argv) {
    end_if(argc < 4, usage);
    uint32_t weight = weight_named(argv[3]);
    char *rest;
    const uint64_t depth = strtoull(argv[2], &rest, 10);
    end_if(rest == argv[2] || *rest != '\0', "the depth is not a number");
    FILE *in = fopen(argv[1], "rb");
    end_if(in == NULL, "the file cannot be opened");
    const size_t length = fread(file, 1, sizeof file, in);
    end_if(ferror(in), "the file cannot be read");

    ryebadger_read(file, length, /* into */ twin, H, vert, H, edge, H, points, 3 * V, creases, H, answer);
    end_if_refused();
    const size_t h = answer[RYEBADGER_AT_FILE_H], v = answer[RYEBADGER_AT_FILE_V];
    if (weight == WEIGHT_OF_FILE) weight = answer[RYEBADGER_AT_FILE_WEIGHT];
    ryebadger_edges(twin, h, answer);
    const size_t e = answer[0];
    for (int word = 5; word < argc; word++) crease(argv[word], e);
    end_if_check_refuses(h, v, e);
    ryebadger_counts(h, e, v, depth, answer);
    end_if_refused();
    const size_t room = answer[RYEBADGER_AT_H_ROOM], points_room = 3 * answer[RYEBADGER_AT_V_ROOM];
    const size_t creases_room = answer[RYEBADGER_AT_E_ROOM];
    uint32_t *lent = malloc(3 * room * sizeof *lent);
    int32_t *places = malloc(points_room * sizeof *places);
    uint8_t *numbers = malloc(creases_room);
    end_if(lent == NULL || places == NULL || numbers == NULL, "there is no memory for the levels");
    ryebadger_refine(twin, h, vert, h, edge, h, points, 3 * v, creases, e, depth, weight, /* into */ lent, room,
                     lent + room, room, lent + 2 * room, room, places, points_room, numbers, creases_room, answer);
    end_if_refused();
    for (unsigned level = 0; level <= depth; level++)
        printf("%u %u %u %u\n", level, answer[RYEBADGER_AT_H + level], answer[RYEBADGER_AT_E + level],
               answer[RYEBADGER_AT_V + level]);
    end_if(fflush(stdout) != 0, "standard output cannot be written");
    if (argc > 4) { /* the last level stands at the end of the room */
        const size_t last_h = answer[RYEBADGER_AT_H + depth], last_v = answer[RYEBADGER_AT_V + depth];
        write_stl(argv[4], lent + 2 * room - last_h, last_h, places + points_room - 3 * last_v, last_v);
    }
}
