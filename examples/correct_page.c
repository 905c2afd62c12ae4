/* examples/correct_page.c: stores one tile of a page, whose bytes a second file has, and writes the corrected page beside it.

       gcc -std=c11 -Wall -Wextra -Werror -Iinclude examples/correct_page.c crates/gvrs_c/out/libgvrs_c.a -o correct_page
       ./correct_page PAGE TILE CELLS NEW */
#include <errno.h>
#include <inttypes.h>
#include <stdio.h>
#include <stdlib.h>
#include <string.h>
#include "gvrs.h"

/* Room for the longest page and for the largest tile, and a byte more, so that a longer one is refused too. */
static uint8_t page[16777216 + 1], cells[1048576 + 1];

/* The time opened and the time modified, in milliseconds since 1970; a real program takes the clock's. */
enum { OPENED = 1, MODIFIED = 2 };

static int refused(const char *what, uint32_t number, uint64_t place) {
    printf("%s: refused %" PRIu32 " at %" PRIu64 ": %s\n", what, number, place, gvrs_refusal(number));
    return 1;
}

static int failed(const char *name, const char *why) {
    fprintf(stderr, "correct_page: %s: %s\n", name, why);
    return 2;
}

/* The bytes of a file, as many as there is room for. */
static int read_file(const char *name, uint8_t *bytes, size_t room, uint64_t *n) {
    FILE *stream = fopen(name, "rb");
    *n = stream == NULL ? 0 : fread(bytes, 1, room, stream);
    return stream != NULL && !ferror(stream) && fclose(stream) == 0;
}

static int write_file(const char *name, const uint8_t *bytes, uint64_t n) {
    FILE *stream = fopen(name, "wb");
    return stream != NULL && fwrite(bytes, 1, n, stream) == n && fclose(stream) == 0;
}

int main(int argc, char **argv) {
    uint64_t n, cells_n, out; /* the page's length; the number of cell bytes; a new length, or a refusal's place */
    if (argc != 5)
        return failed("usage", "correct_page PAGE TILE CELLS NEW");
    char *end;
    errno = 0;
    uint64_t tile = strtoull(argv[2], &end, 10);
    if (argv[2][0] < '0' || argv[2][0] > '9' || *end != '\0' || errno != 0)
        return failed(argv[2], "not a number of a tile");
    if (!read_file(argv[1], page, sizeof page, &n))
        return failed(argv[1], strerror(errno));
    if (!read_file(argv[3], cells, sizeof cells, &cells_n))
        return failed(argv[3], strerror(errno));

    uint32_t number = gvrs_open_page(page, sizeof page, n, OPENED, &out, 1);
    if (number != GVRS_ACCEPTED)
        return refused("opening", number, out);
    n = out;
    printf("opened, %" PRIu64 " bytes\n", n);
    number = gvrs_store_tile(page, sizeof page, n, tile, cells, cells_n, &out, 1);
    if (number != GVRS_ACCEPTED)
        return refused("storing", number, out);
    n = out;
    printf("stored tile %" PRIu64 ", %" PRIu64 " bytes\n", tile, n);
    number = gvrs_close_page(page, sizeof page, n, MODIFIED, &out, 1);
    if (number != GVRS_ACCEPTED)
        return refused("closing", number, out);
    n = out;
    printf("closed, %" PRIu64 " bytes\n", n);

    if (!write_file(argv[4], page, n))
        return failed(argv[4], strerror(errno));
    return 0;
}
