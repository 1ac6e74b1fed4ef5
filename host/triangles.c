/* triangles: builds a cage from plain triangles on standard input and prints its H, E, F, V and B. The input is whole numbers
 * with white space between: V and F, then x, y, z of each vertex in 1/1024 mm, then the three corners of each triangle.
 * Ends with status 1 where the cage is refused, and with 2 where anything else is wrong. */
#include "ryebadger.h"

#include <stdio.h>
#include <stdlib.h>

enum { MOST = 1000000, WORD = 24 }; /* no cage has so many vertices or triangles; no number here so many characters */

static void end_if(int wrong, const char *what) {
    if (wrong) fprintf(stderr, "triangles: %s\n", what), exit(2);
}

static long long number(long long lowest, long long highest) {
    char word[WORD + 1], *rest;
    end_if(scanf("%24s", word) != 1, "the input ends before its last number");
    const long long read = strtoll(word, &rest, 10);
    end_if(rest == word || *rest != '\0' || rest == word + WORD, "the input has what is not a number");
    end_if(read < lowest || read > highest, "a number is out of range for what it stands for");
    return read;
}

int main(void) {
    const size_t coordinates = 3 * (size_t)number(0, MOST), halfedges = 3 * (size_t)number(0, MOST);
    int32_t *points = malloc((coordinates + 1) * sizeof *points);
    uint32_t *vert = malloc((3 * halfedges + 1) * sizeof *vert), *twin = vert + halfedges, *edge = twin + halfedges;
    end_if(points == NULL || vert == NULL, "there is no memory for the tables");
    for (size_t i = 0; i < coordinates; i++) points[i] = (int32_t)number(INT32_MIN, INT32_MAX);
    for (size_t h = 0; h < halfedges; h++) vert[h] = (uint32_t)number(0, UINT32_MAX);
    end_if(scanf(" %*c") != EOF, "the input goes on after its last number");

    uint32_t answer[RYEBADGER_CHECK_ANSWER];
    ryebadger_build(vert, halfedges, points, coordinates, /* into */ twin, halfedges, edge, halfedges, answer);
    if (answer[0] != RYEBADGER_DONE) fprintf(stderr, "refused %u %u\n", answer[0], answer[1]), exit(1);
    printf("%u %u %u %u %u\n", answer[2], answer[3], answer[4], answer[5], answer[6]);
    end_if(fflush(stdout) != 0, "standard output cannot be written");
}
