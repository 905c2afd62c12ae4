/* cli/text.c: a tile as text: export, import. The first line has the names row, column and those of the elements; below it each cell of the
   tile, by rows, has a line with its row and column of the grid and its values, separated by commas. A tile that is not stored has no
   values. */
#define _XOPEN_SOURCE 700
#include <errno.h>
#include <math.h>
#include <stdio.h>
#include <stdlib.h>
#include <string.h>
#include "cli.h"

/* More bytes than the cells of any tile take as text, and than any field of one. */
enum { LONGEST_TEXT = 1 << 26, FIELD = 64 };

/* The elements of a page: type, fill, place and length of the name. */
struct elements {
    uint64_t count, of[16][4];
};

static void read_elements(const uint64_t *is, struct elements *elements) {
    elements->count = is[6];
    for (uint64_t e = 0; e < elements->count; e++)
        gvrs_element(page.bytes, page.n, e, elements->of[e], 4);
}

/* The row and column of a tile's cell, by its number inside the tile. */
static uint64_t row_of(const uint64_t *is, uint64_t tile, uint64_t i) {
    return tile / is[5] * is[2] + i / is[3];
}

static uint64_t column_of(const uint64_t *is, uint64_t tile, uint64_t i) {
    return tile % is[5] * is[3] + i % is[3];
}

static void print_tile(const uint64_t *is, const struct elements *elements, uint64_t tile, int stored, const uint32_t *cells) {
    uint64_t count = is[2] * is[3];
    printf("row,column");
    for (uint64_t e = 0; e < elements->count; e++)
        printf(",%.*s", (int)elements->of[e][3], (const char *)page.bytes + elements->of[e][2]);
    printf("\n");
    for (uint64_t i = 0; i < count; i++) {
        printf("%" PRIu64 ",%" PRIu64, row_of(is, tile, i), column_of(is, tile, i));
        for (uint64_t e = 0; e < elements->count; e++) {
            printf(",");
            if (stored)
                print_value(elements->of[e][0], cells[e * count + i]);
        }
        printf("\n");
    }
}

/* All elements of a tile together have at most as many cells as one element of the largest. */
int run_export(const struct request *request) {
    static uint32_t cells[TILE_CELLS];
    uint64_t tile, is[13], out[2];
    uint32_t kind = GVRS_FILL;
    struct elements elements;
    if (number_given("INDEX", request->words[1], UINT64_MAX, &tile) != DONE || read_page(request->words[0]) != DONE)
        return FAILED;
    uint32_t number = gvrs_page(page.bytes, page.n, is, 13);
    if (number != GVRS_ACCEPTED)
        return refused(number, is[0], NULL);
    read_elements(is, &elements);
    uint64_t count = is[2] * is[3];
    for (uint64_t e = 0; e < elements.count; e++) {
        kind = gvrs_unpack(page.bytes, page.n, tile, e, request->compressor, cells + e * count, TILE_CELLS - e * count, out, 2);
        if (kind < GVRS_STORED)
            return refused_cells(request, kind, out[0]);
    }
    print_tile(is, &elements, tile, kind != GVRS_FILL, cells);
    return DONE;
}

/* Where a text is read, and in which line that is. */
struct reader {
    const char *name;
    const uint8_t *at, *end;
    uint64_t line;
};

/* The next field, up to a comma or the end of the line, which is `last`: DONE or FAILED. A carriage return may end a line too. Any other
   byte that is no plain character is a question mark, which no name and no value has. */
static int next_field(struct reader *r, int last, char *field) {
    size_t n = 0;
    for (; r->at < r->end && *r->at != ',' && *r->at != '\n' && n < FIELD - 1; r->at++)
        field[n++] = *r->at >= 0x20 && *r->at < 0x7f ? (char)*r->at : '?';
    int ends = r->at == r->end || *r->at == '\n';
    if (ends && n > 0 && r->at[-1] == '\r')
        n--;
    field[n] = '\0';
    if (!ends && *r->at != ',')
        return failed("%s: line %" PRIu64 ": '%s..' is too long", r->name, r->line, field);
    if (ends != last)
        return failed("%s: line %" PRIu64 ": it has %s fields than the elements want", r->name, r->line, ends ? "fewer" : "more");
    r->at += r->at < r->end;
    return DONE;
}

static int wanted_field(struct reader *r, int last, const char *wanted) {
    char field[FIELD];
    if (next_field(r, last, field) != DONE)
        return FAILED;
    return strcmp(field, wanted) == 0 ? DONE : failed("%s: line %" PRIu64 ": '%s' stands where %s is wanted", r->name, r->line, field, wanted);
}

/* A Float that is finite, or one that is none by its bits or its name. */
static int read_float(const char *text, uint32_t *pattern) {
    char *end, *close = strchr(text, ')');
    float value = text[0] == '-' ? -INFINITY : INFINITY;
    if (strncmp(text, "NaN(", 4) == 0 && strspn(text + 4, "0123456789abcdef") == 8 && close == text + 12 && close[1] == '\0') {
        *pattern = (uint32_t)strtoul(text + 4, NULL, 16);
        return 1;
    }
    if (strcmp(text + (text[0] == '-'), "infinity") != 0) {
        value = strtof(text, &end);
        if (text[0] == '\0' || *end != '\0' || text[strspn(text, "+-.0123456789eE")] != '\0' || !isfinite(value))
            return 0;
    }
    memcpy(pattern, &value, sizeof value);
    return 1;
}

/* A whole number of the type's range, with a sign only where it is negative. */
static int read_integer(uint64_t type, const char *text, uint32_t *pattern) {
    uint64_t number, half = type == SHORT ? 0x8000 : 0x80000000, negative = text[0] == '-';
    if (!read_number(text + negative, half - 1 + negative, &number))
        return 0;
    *pattern = (uint32_t)(negative ? (2 * half - number) % (2 * half) : number);
    return 1;
}

static int read_value(struct reader *r, int last, uint64_t type, uint32_t *pattern) {
    char field[FIELD];
    if (next_field(r, last, field) != DONE)
        return FAILED;
    if (type == FLOAT ? read_float(field, pattern) : read_integer(type, field, pattern))
        return DONE;
    return failed("%s: line %" PRIu64 ": '%s' is no %s", r->name, r->line, field, TYPES[type]);
}

static int read_names(struct reader *r, const struct elements *elements) {
    char name[FIELD];
    int status = wanted_field(r, 0, "row") == DONE ? wanted_field(r, 0, "column") : FAILED;
    for (uint64_t e = 0; e < elements->count && status == DONE; e++) {
        snprintf(name, sizeof name, "%.*s", (int)elements->of[e][3], (const char *)page.bytes + elements->of[e][2]);
        status = wanted_field(r, e + 1 == elements->count, name);
    }
    return status;
}

/* The line of a cell: its bytes go to their places in the tile, the lowest first. */
static int read_cell(struct reader *r, const uint64_t *is, const struct elements *elements, uint64_t tile, uint64_t i, uint8_t *cells) {
    char number[FIELD];
    uint32_t pattern = 0;
    r->line = i + 2;
    if (r->at == r->end)
        return failed("%s: it ends before line %" PRIu64 ", and a tile has %" PRIu64 " cells", r->name, r->line, is[2] * is[3]);
    snprintf(number, sizeof number, "%" PRIu64, row_of(is, tile, i));
    if (wanted_field(r, 0, number) != DONE)
        return FAILED;
    snprintf(number, sizeof number, "%" PRIu64, column_of(is, tile, i));
    if (wanted_field(r, 0, number) != DONE)
        return FAILED;
    for (uint64_t e = 0; e < elements->count; e++) {
        uint64_t type = elements->of[e][0], size = type == SHORT ? 2 : 4;
        if (read_value(r, e + 1 == elements->count, type, &pattern) != DONE)
            return FAILED;
        for (uint64_t b = 0; b < size; b++)
            cells[i * size + b] = (uint8_t)(pattern >> 8 * b);
        cells += is[2] * is[3] * size;
    }
    return DONE;
}

int pack_text(struct change *c, const uint64_t *is) {
    struct reader r = {c->text_name, c->text, c->text + c->text_n, 1};
    struct elements elements;
    read_elements(is, &elements);
    c->cells_n = is[7];
    c->cells = malloc(c->cells_n);
    if (c->cells == NULL)
        return failed("%s: %s", c->text_name, strerror(errno));
    int status = read_names(&r, &elements);
    for (uint64_t i = 0; i < is[2] * is[3] && status == DONE; i++)
        status = read_cell(&r, is, &elements, c->tile, i, c->cells);
    if (status == DONE && r.at < r.end)
        return failed("%s: it goes on behind the last cell, in line %" PRIu64, c->text_name, r.line + 1);
    return status;
}

int run_import(const struct request *request) {
    struct change c = {.text_name = request->words[2]};
    uint8_t *text;
    if (number_given("INDEX", request->words[1], UINT64_MAX, &c.tile) != DONE)
        return FAILED;
    if ((text = read_long(c.text_name, LONGEST_TEXT, &c.text_n)) == NULL)
        return FAILED;
    c.text = text;
    int status = change(request, &c, 1);
    free(c.cells);
    free(text);
    return status;
}
