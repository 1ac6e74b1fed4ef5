/* files: takes the cage file on standard input, of either form, and calls what the examples do not: it writes what was read in
 * both forms, and moves the file to both. After each call it prints the bytes that were written, then number and place. */
#include "ryebadger.h"

#include <stdio.h>

enum { H = RYEBADGER_MOST_HALFEDGES, V = RYEBADGER_MOST_VERTICES, LONGEST = RYEBADGER_LONGEST_FILE };
static uint8_t file[LONGEST], lent[LONGEST], creases[H];
static uint32_t twin[H], vert[H], edge[H], read[RYEBADGER_READ_ANSWER], answer[RYEBADGER_WRITE_ANSWER];
static int32_t points[3 * V];

static void print(void) {
    fwrite(lent, 1, answer[2], stdout);
    printf("%u %u\n", answer[0], answer[1]);
}

int main(void) {
    const size_t length = fread(file, 1, LONGEST, stdin);
    ryebadger_read(file, length, /* into */ twin, H, vert, H, edge, H, points, 3 * V, creases, H, read);
    const size_t h = read[RYEBADGER_AT_FILE_H], coordinates = 3 * read[RYEBADGER_AT_FILE_V], e = read[RYEBADGER_AT_FILE_E];
    ryebadger_write(twin, h, vert, h, edge, h, points, coordinates, /* into */ lent, LONGEST, answer);
    print();
    ryebadger_write_form_2(twin, h, vert, h, edge, h, points, coordinates, creases, e, read[RYEBADGER_AT_FILE_WEIGHT],
                           /* into */ lent, LONGEST, answer);
    print();
    ryebadger_to_form_2(file, length, /* into */ lent, LONGEST, answer);
    print();
    ryebadger_to_form_1(file, length, /* into */ lent, LONGEST, answer);
    print();
}
