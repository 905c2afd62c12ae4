/* examples/show_cell.c: prints one cell of a page.

       gcc -std=c11 -Wall -Wextra -Werror -Iinclude examples/show_cell.c crates/gvrs_c/out/libgvrs_c.a -o show_cell
       ./show_cell FILE ROW COLUMN ELEMENT */
#include <errno.h>
#include <inttypes.h>
#include <stdio.h>
#include <stdlib.h>
#include <string.h>
#include "gvrs.h"

/* Room for the longest file and a byte more, so that a longer one is refused too. */
static uint8_t file[16777216 + 1];

static const char *const TYPES[] = {"Integer", "integer-coded", "Float", "Short"};

static int refused(uint32_t number, uint64_t place) {
    printf("refused %" PRIu32 " at %" PRIu64 ": %s\n", number, place, gvrs_refusal(number));
    return 1;
}

static int failed(const char *name, const char *why) {
    fprintf(stderr, "show_cell: %s: %s\n", name, why);
    return 2;
}

/* Digits alone, of a number below 2^64. */
static int read_number(const char *text, uint64_t *number) {
    char *end;
    errno = 0;
    *number = strtoull(text, &end, 10);
    return '0' <= text[0] && text[0] <= '9' && *end == '\0' && errno == 0;
}

/* A Float with its bits, a value of another type as a signed number. */
static void print_value(uint64_t type, uint32_t bits) {
    int64_t half = type == 3 ? 0x8000 : 0x80000000;
    float value;
    memcpy(&value, &bits, sizeof value);
    if (type == 2)
        printf("Float %g (bits %08" PRIx32 ")", value, bits);
    else
        printf("%s %" PRId64, TYPES[type % 4], bits < half ? (int64_t)bits : (int64_t)bits - 2 * half);
}

int main(int argc, char **argv) {
    uint64_t spot[3], place, out[3]; /* row, column, element; a refusal's place; type code, bits, place */
    if (argc != 5)
        return failed("usage", "show_cell FILE ROW COLUMN ELEMENT");
    for (int i = 0; i < 3; i++)
        if (!read_number(argv[2 + i], &spot[i]))
            return failed(argv[2 + i], "not a number");
    FILE *stream = fopen(argv[1], "rb");
    size_t n = stream == NULL ? 0 : fread(file, 1, sizeof file, stream);
    if (stream == NULL || ferror(stream))
        return failed(argv[1], strerror(errno));
    fclose(stream);

    uint32_t number = gvrs_check(file, n, &place, 1);
    if (number != GVRS_ACCEPTED)
        return refused(number, place);
    uint32_t kind = gvrs_cell(file, n, spot[0], spot[1], spot[2], GVRS_BY_DIRECTORY, out, 3);
    if (kind != GVRS_STORED && kind != GVRS_FILL)
        return refused(kind, out[2]);
    printf(kind == GVRS_STORED ? "stored " : "fill ");
    print_value(out[0], (uint32_t)out[1]);
    if (kind == GVRS_STORED)
        printf(" at %" PRIu64, out[2]);
    printf("\n");
    return 0;
}
