/* examples/show_page.c: prints a page: the name, type and fill of each element, and the kind and value of each of its cells, by rows.

       gcc -std=c11 -Wall -Wextra -Werror -Iinclude examples/show_page.c crates/gvrs_c/out/libgvrs_c.a -o show_page
       ./show_page FILE COMPRESSOR */
#include <inttypes.h>
#include <stdio.h>
#include <stdlib.h>
#include "gvrs.h"

/* Room for the longest file and a byte more, so that a longer one is refused too; for the cells of a strip of rows; for those of a tile. */
static uint8_t file[16777216 + 1];
enum { ROOM = 1048576, TILE = 524288 };
static uint32_t kinds[ROOM], bits[ROOM], memory[TILE];
static const char *const TYPES[] = {"Integer", "integer-coded", "Float", "Short"};

/* A Float as its bits, a value of another type as a signed number. */
static void print_value(const char *kind, uint64_t type, uint64_t pattern) {
    int32_t value = type == 3 ? (int16_t)pattern : (int32_t)pattern;
    printf(type == 2 ? "%s %08" PRIx32 : "%s %" PRId32, kind, value);
}

int main(int argc, char **argv) {
    uint64_t page[13], element[4], count;
    char *end = "-";
    unsigned long long index = argc == 3 ? strtoull(argv[2], &end, 10) : 0;
    int right = argc == 3 && '0' <= argv[2][0] && argv[2][0] <= '9' && *end == '\0' && index <= UINT32_MAX;
    FILE *stream = right ? fopen(argv[1], "rb") : NULL;
    size_t n = stream == NULL ? 0 : fread(file, 1, sizeof file, stream);
    if (stream == NULL || ferror(stream))
        return fprintf(stderr, "show_page: a file that can be read and a compressor index are needed\n"), 2;
    uint32_t number = gvrs_page(file, n, page, 13);
    if (number != GVRS_ACCEPTED)
        return printf("refused %" PRIu32 " at %" PRIu64 ": %s\n", number, page[0], gvrs_refusal(number)), 1;
    for (uint64_t e = 0; e < page[6]; e++) {
        gvrs_element(file, n, e, element, 4);
        printf("%.*s, %s, ", (int)element[3], (const char *)file + element[2], TYPES[element[0]]);
        print_value("fill", element[0], element[1]);
        for (uint64_t row = 0, rows; row < page[0]; row += rows) {
            rows = page[2] * page[1] <= ROOM ? page[2] : ROOM / page[1];
            rows = rows < page[0] - row ? rows : page[0] - row;
            gvrs_cells(file, n, (uint32_t)index, e, row, 0, rows, page[1], memory, TILE, kinds, ROOM, bits, ROOM, &count, 1);
            for (uint64_t i = 0; i < count; i++) {
                printf(i % page[1] == 0 ? "\n    " : ", ");
                if (kinds[i] < GVRS_STORED)
                    printf("%s", gvrs_refusal(kinds[i]));
                else
                    print_value(kinds[i] == GVRS_STORED ? "stored" : kinds[i] == GVRS_FILL ? "fill" : "unpacked", element[0], bits[i]);
            }
        }
        printf("\n");
    }
    return 0;
}
