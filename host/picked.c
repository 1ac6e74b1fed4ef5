/* picked FILE DEPTH HALFEDGE: reads a cage file of either form and shows the triangle that a halfedge is in at a depth, without
 * the levels: a line for each of its three halfedges, which has the halfedge, its twin or - where it has none, its vertex and
 * its edge.
 * Ends with status 1 where the cage, the depth or the halfedge is refused, and with 2 where anything else is wrong. */
#include "ryebadger.h"

#include <ctype.h>
#include <errno.h>
#include <inttypes.h>
#include <stdio.h>
#include <stdlib.h>

enum { H = RYEBADGER_MOST_HALFEDGES, V = RYEBADGER_MOST_VERTICES };
static uint8_t file[RYEBADGER_LONGEST_FILE + 1]; /* a byte more, so that a longer file is refused as such */
static uint32_t twin[H], vert[H], edge[H];
static int32_t points[3 * V]; /* these and the creases are read, and not asked about */
static uint8_t creases[H];

static void end_if(int wrong, const char *what) {
    if (wrong) fprintf(stderr, "picked: %s\n", what), exit(2);
}

static void end_if_refused(uint64_t number, uint64_t place) {
    if (number != RYEBADGER_DONE) fprintf(stderr, "refused %" PRIu64 " %" PRIu64 "\n", number, place), exit(1);
}

/* Digits alone: strtoull takes spaces and a sign in front too. */
static uint64_t number(const char *word, const char *what) {
    char *rest;
    errno = 0;
    const unsigned long long read = strtoull(word, &rest, 10);
    end_if(!isdigit((unsigned char)word[0]) || *rest != '\0' || errno != 0, what);
    return read;
}

int main(int argc, char **argv) {
    end_if(argc != 4, "usage: picked FILE DEPTH HALFEDGE");
    const uint64_t depth = number(argv[2], "the depth is not a number of 64 bits");
    const uint64_t picked = number(argv[3], "the halfedge is not a number of 64 bits");
    FILE *in = fopen(argv[1], "rb");
    end_if(in == NULL, "the file cannot be opened");
    const size_t length = fread(file, 1, sizeof file, in);
    end_if(ferror(in), "the file cannot be read");

    uint32_t read[RYEBADGER_READ_ANSWER];
    ryebadger_read(file, length, /* into */ twin, H, vert, H, edge, H, points, 3 * V, creases, H, read);
    end_if_refused(read[0], read[1]);
    const size_t h = read[RYEBADGER_AT_FILE_H], v = read[RYEBADGER_AT_FILE_V];

    uint64_t answer[RYEBADGER_HALFEDGE_ANSWER];
    ryebadger_halfedge(twin, h, vert, h, edge, h, v, depth, picked, answer);
    end_if_refused(answer[0], answer[1]);
    const uint64_t first = picked - picked % 3; /* the level has it, so that its triangle is there too */
    for (uint64_t corner = first; corner < first + 3; corner++) {
        ryebadger_halfedge(twin, h, vert, h, edge, h, v, depth, corner, answer);
        end_if_refused(answer[0], answer[1]);
        printf("%" PRIu64 " ", corner);
        if (answer[RYEBADGER_AT_HALFEDGE_TWIN] == RYEBADGER_MARKER)
            printf("-");
        else
            printf("%" PRIu64, answer[RYEBADGER_AT_HALFEDGE_TWIN]);
        printf(" %" PRIu64 " %" PRIu64 "\n", answer[RYEBADGER_AT_HALFEDGE_VERT], answer[RYEBADGER_AT_HALFEDGE_EDGE]);
    }
    end_if(fflush(stdout) != 0, "standard output cannot be written");
}
