/* examples/new_page.c: makes a page from nothing, with one tile, and reads a cell of it; with `judge` it judges scores too.

       gcc -std=c11 -Wall -Wextra -Werror -Iinclude examples/new_page.c crates/gvrs_c/out/libgvrs_c.a -o new_page
       ./new_page NEW [judge] */
#include <inttypes.h>
#include <stdio.h>
#include <string.h>
#include "gvrs.h"

static int refused(const char *what, uint32_t number, uint64_t place) {
    return printf("%s: refused %" PRIu32 " at %" PRIu64 ": %s\n", what, number, place, gvrs_refusal(number)), 1;
}

/* Whether the scores of a rectangle of element 1 are certain, and the lowest of them. */
static void judge(const char *what, const uint8_t *file, uint64_t n, uint64_t row, uint64_t column, uint64_t rows, uint64_t columns) {
    uint32_t memory[64], grade;
    uint64_t out[4];
    grade = gvrs_deed(file, n, 256, 1, row, column, rows, columns, memory, 64, out, 4);
    printf("%s: %s, fills %" PRIu64 ", lowest %" PRIu64 "\n", what,
           grade == GVRS_CERTAIN    ? "certain"
           : grade == GVRS_DOUBTFUL ? "doubtful"
           : grade == GVRS_UNREAD   ? "unread"
                                    : gvrs_refusal(grade), out[0], out[2]);
}

int main(int argc, char **argv) {
    /* A grid of 4 by 6, tiles of 2 by 3, checksums on, no product label; an Integer with the fill 0, and a Short from 0 to 1000 with the
       fill -1, whose names have 5 bytes each. */
    uint32_t page[] = {4, 6, 2, 3, 1, 0};
    uint32_t elements[][14] = {{0, 0, 5}, {3, 0, 5, 0, 0, 0, 0, 1000, (uint32_t)-1}};
    const uint8_t *names = (const uint8_t *)"glyph" "score";
    struct { uint32_t glyphs[6]; uint16_t scores[6]; } cells = {{101, 102, 103, 104, 105, 106}, {990, 985, 1000, 870, 920, 999}};
    uint8_t uuid[16] = {0}, front[512], file[4096];
    uint32_t tile = 3, number;
    uint64_t n, cell[3];
    if ((number = gvrs_front(page, 6, uuid, 16, elements[0], 28, names, 10, front, sizeof front, &n, 1)) != GVRS_ACCEPTED)
        return refused("front", number, n);
    if ((number = gvrs_lay_down(front, n, 1, &tile, 1, (const uint8_t *)&cells, sizeof cells, file, sizeof file, &n, 1)) != GVRS_ACCEPTED)
        return refused("lay-down", number, n);
    int judges = argc == 3 && strcmp(argv[2], "judge") == 0;
    FILE *stream = argc == 2 || judges ? fopen(argv[1], "wbx") : NULL;
    if (stream == NULL || fwrite(file, 1, n, stream) != n || fclose(stream) != 0)
        return fprintf(stderr, "new_page: a new file is needed that can be written: new_page NEW\n"), 2;
    number = gvrs_cell(file, n, 3, 4, 1, GVRS_BY_DIRECTORY, cell, 3);
    printf("%" PRIu64 " bytes; cell (3, 4) of score: %s %" PRIu64 "\n", n, number == GVRS_STORED ? "stored" : "not stored", cell[1]);
    if (judges) {
        judge("tile 3", file, n, 2, 3, 2, 3);
        judge("page", file, n, 0, 0, 4, 6);
    }
    return 0;
}
