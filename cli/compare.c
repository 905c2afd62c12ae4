/* cli/compare.c: the command that compares two pages. */
#include <stdio.h>
#include <stdlib.h>
#include "cli.h"

/* Numbers of memory that let every tile be unpacked as seldom as can be, numbers of an entry, and room for the cells of a strip. */
enum { MEMORY = 2 * TILE_CELLS, ENTRY = 5, ROOM = 1048576 };
static uint32_t memory[MEMORY];

/* A page with its compressor index, and cells of a strip of its rows, element by element. */
struct side {
    const struct page *page;
    uint32_t compressor;
    uint32_t kinds[ROOM], bits[ROOM];
};
static struct side sides[2];

static uint32_t compare(uint32_t *list, uint64_t list_n, uint64_t *out) {
    return gvrs_compare(page.bytes, page.n, sides[0].compressor, second_page.bytes, second_page.n, sides[1].compressor, memory, MEMORY,
                        list, list_n, out, 2);
}

/* In what two accepted pages are unlike. */
static void print_unlike(char *note, size_t room) {
    static const char *const SIDES[] = {"grid rows", "grid columns", "tile rows", "tile columns"};
    uint64_t first[13], second[13], of_first[4], of_second[4];
    gvrs_page(page.bytes, page.n, first, 13);
    gvrs_page(second_page.bytes, second_page.n, second, 13);
    for (int i = 0; i < 4; i++)
        if (first[i] != second[i]) {
            snprintf(note, room, "%s: %" PRIu64 " and %" PRIu64, SIDES[i], first[i], second[i]);
            return;
        }
    if (first[6] != second[6]) {
        snprintf(note, room, "elements: %" PRIu64 " and %" PRIu64, first[6], second[6]);
        return;
    }
    for (uint64_t e = 0; e < first[6]; e++) {
        gvrs_element(page.bytes, page.n, e, of_first, 4);
        gvrs_element(second_page.bytes, second_page.n, e, of_second, 4);
        if (of_first[0] != of_second[0]) {
            snprintf(note, room, "types of element %" PRIu64, e);
            return;
        }
    }
}

/* Says whose page is refused. */
static int refused_comparison(uint32_t number, const uint64_t *out) {
    char note[200] = "", words[600];
    if (out[1] == 0) {
        print_unlike(note, sizeof note);
        failed("%s, %s: refused %" PRIu32 " at %" PRIu64 ": %s: the pages differ in %s", page.name, second_page.name, number, out[0],
               gvrs_refusal(number), note);
        return REFUSED;
    }
    const struct side *side = &sides[out[1] - 1];
    int unnamed = number == GVRS_COMPRESSED && side->compressor == NO_COMPRESSOR;
    snprintf(words, sizeof words, "%s: the %s page%s%s", gvrs_refusal(number), out[1] == 1 ? "first" : "second", unnamed ? ": " : "",
             unnamed ? compressor_note(side->page) : "");
    failed("%s: refused %" PRIu32 " at %" PRIu64 ": %s", side->page->name, number, out[0], words);
    explain(side->page, number, out[0]);
    return REFUSED;
}

/* The columns of both pages, and their elements: type, fill, and the name's place and length in the first. */
struct shape {
    uint64_t rows, columns, elements;
    uint64_t element[16][4];
};

static void read_shape(struct shape *is) {
    uint64_t numbers[13];
    gvrs_page(page.bytes, page.n, numbers, 13);
    is->rows = numbers[0], is->columns = numbers[1], is->elements = numbers[6];
    for (uint64_t e = 0; e < is->elements; e++)
        gvrs_element(page.bytes, page.n, e, is->element[e], 4);
}

/* Reads the cells of a strip, of each element and of both pages. */
static void read_strip(const struct shape *is, uint64_t row, uint64_t rows) {
    uint64_t out, cells = rows * is->columns;
    for (struct side *side = sides; side < sides + 2; side++)
        for (uint64_t e = 0; e < is->elements; e++)
            gvrs_cells(side->page->bytes, side->page->n, side->compressor, e, row, 0, rows, is->columns, memory, MEMORY,
                       side->kinds + e * cells, cells, side->bits + e * cells, cells, &out, 1);
}

static const struct field ENTRIES[] = {
    {"row", "", NULL}, {"column", " ", NULL}, {"element", " ", NULL}, {"first_kind", NULL, NULL}, {"first", " ", NULL},
    {"second_kind", NULL, NULL}, {"second", " ", NULL}, {"tile", ", tile ", NULL}, {"number", ", number ", NULL}, {NULL, NULL, NULL},
};

static const struct field COMPARED[] = {{"differing", "", NULL}, {NULL, NULL, NULL}};

/* An entry, its cells being the `at`th of the strip, counted from 0, and of its element. */
static void show_entry(const struct shape *is, const uint32_t *entry, uint64_t at) {
    const uint64_t *element = is->element[entry[2]];
    open_row();
    put_number(entry[0]);
    put_number(entry[1]);
    put_name(page.bytes + element[2], element[3]);
    for (const struct side *side = sides; side < sides + 2; side++)
        put_cell(side->kinds[at], element[0], side->bits[at]);
    put_number(entry[3]);
    put_number(entry[4]);
    close_row("\n");
}

/* Entries go by row: a strip begins where the next entry is. */
static void show_entries(const uint32_t *list, uint64_t count) {
    struct shape is;
    uint64_t row = 0, rows = 0;
    read_shape(&is);
    for (const uint32_t *entry = list; entry < list + ENTRY * count; entry += ENTRY) {
        if (entry[0] >= row + rows) {
            row = entry[0], rows = ROOM / (is.elements * is.columns);
            rows = rows < is.rows - row ? rows : is.rows - row;
            read_strip(&is, row, rows);
            progress((uint64_t)(entry - list), ENTRY * count);
        }
        show_entry(&is, entry, (entry[2] * rows + entry[0] - row) * is.columns + entry[1]);
    }
    progress(count, count);
}

/* So many entries, in memory to be freed; NULL where there is no room for them, which is said. */
static uint32_t *entries(uint64_t count) {
    uint64_t out[2];
    uint32_t *list = count < UINT64_MAX / (ENTRY * sizeof *list) ? malloc((count * ENTRY + 1) * sizeof *list) : NULL;
    if (list == NULL)
        failed("%" PRIu64 " cells differ, and there is no room to list them; --most N shows the earliest N", count);
    else if (count > 0)
        compare(list, ENTRY * count, out);
    return list;
}

/* The number of cells that differ is asked for without room for an entry. */
int run_compare(const struct request *request) {
    uint32_t none;
    uint64_t out[2];
    if (read_page(request->words[0]) != DONE || read_second_page(request->words[1]) != DONE)
        return FAILED;
    sides[0].page = &page, sides[0].compressor = request->compressor;
    sides[1].page = &second_page, sides[1].compressor = request->has_second ? request->second : request->compressor;
    uint32_t number = compare(&none, 0, out);
    if (number != GVRS_ACCEPTED)
        return refused_comparison(number, out);
    uint64_t shown = out[0] < request->most ? out[0] : request->most;
    uint32_t *list = entries(shown);
    if (list == NULL)
        return FAILED;
    open_object(COMPARED, NO_LINE);
    open_list("cells", ENTRIES);
    show_entries(list, shown);
    close_list();
    put_number(out[0]);
    close_object(out[0] == 1 ? " cell differs\n" : " cells differ\n");
    free(list);
    return out[0] == 0 ? DONE : DIFFERENT;
}
