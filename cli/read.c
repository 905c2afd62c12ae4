/* cli/read.c: the commands that read a page: check, info, cell, tile, cells, deed. */
#define _XOPEN_SOURCE 700
#include <stdio.h>
#include <string.h>
#include <time.h>
#include "cli.h"

/* Room for the cells of a strip of rows, and for those of a tile. */
enum { ROOM = 1048576 };
static uint32_t kinds[ROOM], bits[ROOM], memory[TILE_CELLS];

/* A refusal of cells. Compressed content can be asked for by its index. */
int refused_cells(const struct request *request, uint32_t number, uint64_t place) {
    int unnamed = number == GVRS_COMPRESSED && request->compressor == NO_COMPRESSOR;
    return refused(number, place, unnamed ? compressor_note(&page) : NULL);
}

/* The numbers in the words from `first` on, `count` of them, by the names of the arguments. */
static int numbers_given(const struct request *request, int first, const char *const *names, int count, uint64_t *numbers) {
    for (int i = 0; i < count; i++)
        if (number_given(names[i], request->words[first + i], UINT64_MAX, &numbers[i]) != DONE)
            return FAILED;
    return DONE;
}

static const struct field CHECKED[] = {
    {"file", "", NULL}, {"accepted", ": ", NULL}, {"refusal", " ", NULL}, {"place", " at ", NULL}, {"words", ": ", NULL},
    {"rule", NULL, NULL}, {"rule_words", NULL, NULL}, {"what", NULL, NULL}, {"position", NULL, NULL}, {"found", NULL, NULL},
    {"wanted", NULL, NULL}, {NULL, NULL, NULL},
};

/* A row for a file. As text the reason stands behind the refusal where it is wanted. */
static void show_checked(uint32_t number, uint64_t place) {
    struct reason why;
    char text[300] = "";
    int refused = number != GVRS_ACCEPTED, explained = reason(&page, number, place, &why);
    if (explained && why_wanted)
        say_reason(&why, number, text, sizeof text - 1);
    strcat(text, "\n");
    open_row();
    put_word(page.name);
    put_flag(!refused, "accepted", "refused");
    put_number_if(refused, number);
    put_number_if(refused, place);
    if (refused)
        put_word(gvrs_refusal(number));
    else
        put_absent();
    put_number_if(explained, why.rule);
    if (explained)
        put_word(gvrs_rule(why.rule)), put_word(why.what);
    else
        put_absent(), put_absent();
    put_number_if(explained, why.position);
    put_number_if(explained && why.compared, why.found);
    put_number_if(explained && why.compared, why.wanted);
    close_row(text);
}

/* One file alone, as text: the refusal goes where every refusal goes. */
static int check_one(const struct request *request) {
    uint64_t place;
    if (read_page(request->words[0]) != DONE)
        return FAILED;
    uint32_t number = gvrs_check(page.bytes, page.n, &place, 1);
    if (number != GVRS_ACCEPTED)
        return refused(number, place, NULL);
    printf("accepted\n");
    return DONE;
}

/* The status is that of the worst: failed, refused, done. */
int run_check(const struct request *request) {
    int worst = DONE;
    if (!request->each && request->form == TEXT)
        return check_one(request);
    open_list(NULL, CHECKED);
    for (int i = 0; i < request->count; i++) {
        uint64_t place;
        int status = read_page(request->words[i]);
        if (status == DONE) {
            uint32_t number = gvrs_check(page.bytes, page.n, &place, 1);
            show_checked(number, place);
            status = number == GVRS_ACCEPTED ? DONE : REFUSED;
        }
        worst = status > worst ? status : worst;
        progress((uint64_t)i + 1, (uint64_t)request->count);
    }
    close_list();
    return worst;
}

static void print_element(uint64_t e) {
    uint64_t element[6];
    gvrs_element(page.bytes, page.n, e, element, 6);
    printf("element %" PRIu64 ": %.*s, %s, ", e, (int)element[3], (const char *)page.bytes + element[2], TYPES[element[0]]);
    print_marked("fill", element[0], (uint32_t)element[1]);
    if (element[5] > 0) {
        printf(", unit ");
        print_text(page.bytes + element[4], element[5]);
    }
    printf("\n");
}

static int print_info(void) {
    uint64_t is[13];
    uint32_t number = gvrs_page(page.bytes, page.n, is, 13);
    if (number != GVRS_ACCEPTED)
        return refused(number, is[0], NULL);
    printf("grid: %" PRIu64 " rows, %" PRIu64 " columns\n", is[0], is[1]);
    printf("tile: %" PRIu64 " rows, %" PRIu64 " columns\n", is[2], is[3]);
    printf("tiles: %" PRIu64 " down, %" PRIu64 " across\n", is[4], is[5]);
    printf("tiles stored: %" PRIu64 " of %" PRIu64 "\n", is[9], is[4] * is[5]);
    printf("bytes of a tile: %" PRIu64 "\n", is[7]);
    printf("metadata records: %" PRIu64 "\n", is[10]);
    printf("modified: %" PRIu64 " ms since 1970\n", is[11]);
    printf("checksums: %s\n", is[12] == 1 ? "on" : "off");
    for (uint64_t e = 0; e < is[6]; e++)
        print_element(e);
    return DONE;
}

/* What a page says further is shown with --all, and as JSON or CSV. */
static const struct field PAGE[] = {
    {"file", NULL, NULL},
    {"length", "length: ", NULL}, {"free", " bytes, free ", NULL},
    {"label", "\nlabel: ", NULL}, {"uuid", "\nuuid: ", NULL},
    {"rows", "\ngrid: ", NULL}, {"columns", " rows, ", NULL},
    {"tile_rows", " columns\ntile: ", NULL}, {"tile_columns", " rows, ", NULL},
    {"tiles_down", " columns\ntiles: ", NULL}, {"tiles_across", " down, ", NULL},
    {"tiles_stored", " across\ntiles stored: ", NULL}, {"tiles", " of ", NULL},
    {"tile_bytes", "\nbytes of a tile: ", NULL}, {"metadata_records", "\nmetadata records: ", NULL},
    {"modified", "\nmodified: ", NULL}, {"modified_ms", ", ", NULL},
    {"checksums", " ms since 1970\nchecksums: ", NULL},
    {"raster_space", "\nraster space: ", NULL}, {"coordinate_system", "\ncoordinate system: ", NULL},
    {NULL, NULL, NULL},
};

static const struct field ELEMENTS[] = {
    {"element", "element ", NULL}, {"name", ": ", NULL}, {"type", ", ", NULL}, {"fill_value", ", fill(", NULL},
    {"minimum", "), range ", NULL}, {"maximum", " to ", NULL}, {"scale", ", scale ", NULL}, {"offset", ", offset ", NULL},
    {"unit", ", unit ", NULL}, {"label", ", label ", NULL}, {"description", ", description ", NULL}, {NULL, NULL, NULL},
};

static void put_text_at(const uint64_t *text) {
    put_text(page.bytes + text[0], text[1]);
}

static void show_element(uint64_t e) {
    uint64_t element[18];
    gvrs_element_said(page.bytes, page.n, e, element, 18);
    int coded = element[0] == INTEGER_CODED;
    open_row();
    put_number(e);
    put_name(page.bytes + element[2], element[3]);
    put_word(TYPES[element[0]]);
    put_value(element[0], element[1]);
    put_value(element[0], element[11]);
    put_value(element[0], element[12]);
    for (int i = 16; i < 18; i++)
        if (coded)
            put_value(FLOAT, element[i]);
        else
            put_absent();
    put_text_at(element + 4);
    put_text_at(element + 6);
    put_text_at(element + 8);
    close_row("\n");
}

/* A time in milliseconds since 1970 by ISO 8601; a year of more than four digits has a sign. */
static void put_time(uint64_t milliseconds) {
    time_t seconds = (time_t)(milliseconds / 1000);
    struct tm at = {0};
    char text[60];
    gmtime_r(&seconds, &at);
    long long year = at.tm_year + 1900LL;
    snprintf(text, sizeof text, "%s%04lld-%02d-%02dT%02d:%02d:%02d.%03dZ", year > 9999 ? "+" : "", year, at.tm_mon + 1, at.tm_mday, at.tm_hour,
             at.tm_min, at.tm_sec, (int)(milliseconds % 1000));
    put_word(text);
}

static void put_uuid(const uint8_t *uuid) {
    char text[40];
    for (int i = 0, at = 0; i < 16; i++)
        at += snprintf(text + at, sizeof text - (size_t)at, i == 4 || i == 6 || i == 8 || i == 10 ? "-%02x" : "%02x", uuid[i]);
    put_word(text);
}

/* A code of the header, in words; nothing where it says nothing. */
static void put_code(uint64_t code, const char *one, const char *two) {
    if (code == 0)
        put_absent();
    else
        put_word(code == 1 ? one : two);
}

/* The bytes of an accepted page's free records. A record begins with its length, of four bytes, and its type; that of a free one is 0. */
static uint64_t free_bytes(uint64_t front) {
    uint64_t count = 0;
    for (uint64_t at = front, length; at < page.n; at += length) {
        const uint8_t *record = page.bytes + at;
        length = record[0] | (uint64_t)record[1] << 8 | (uint64_t)record[2] << 16 | (uint64_t)record[3] << 24;
        count += record[4] == 0 ? length : 0;
    }
    return count;
}

static int show_info(const struct request *request) {
    uint64_t is[21];
    uint32_t number = gvrs_page_said(page.bytes, page.n, is, 21);
    if (number != GVRS_ACCEPTED)
        return refused(number, is[0], NULL);
    open_object(PAGE, FACTS);
    put_word(page.name);
    put_number(page.n);
    put_number(free_bytes(is[8]));
    put_text_at(is + 13);
    put_uuid(page.bytes + is[15]);
    for (int i = 0; i < 6; i++)
        put_number(is[i]);
    put_number(is[9]);
    put_number(is[4] * is[5]);
    put_number(is[7]);
    put_number(is[10]);
    put_time(is[11]);
    put_number(is[11]);
    put_flag(is[12] == 1, "on", "off");
    put_code(is[17], "point", "area");
    put_code(is[18], "Cartesian", "geographic");
    if (request->form == TEXT)
        printf("\n");
    show_methods();
    open_list("elements", ELEMENTS);
    for (uint64_t e = 0; e < is[6]; e++)
        show_element(e);
    close_list();
    close_object("");
    return DONE;
}

int run_info(const struct request *request) {
    if (read_page(request->words[0]) != DONE)
        return FAILED;
    return request->all || request->form != TEXT ? show_info(request) : print_info();
}

static const struct field CELL[] = {
    {"kind", NULL, NULL}, {"value", NULL, NULL}, {"type", NULL, NULL}, {"bits", NULL, NULL}, {"place", NULL, NULL},
    {"tile", NULL, NULL}, {"number", NULL, NULL}, {NULL, NULL, NULL},
};

/* A cell as JSON or CSV. A fill has no bits and no place. */
static int show_cell(uint32_t kind, const uint64_t *out) {
    open_object(CELL, ONE_LINE);
    put_cell(kind, out[0], (uint32_t)out[1]);
    put_word(TYPES[out[0]]);
    put_number_if(kind != GVRS_FILL, out[1]);
    put_number_if(kind != GVRS_FILL, out[2]);
    put_number(out[3]);
    put_number(out[4]);
    close_object("");
    return DONE;
}

int run_cell(const struct request *request) {
    static const char *const NAMES[] = {"ROW", "COLUMN"};
    uint64_t spot[2], element, out[5];
    if (numbers_given(request, 1, NAMES, 2, spot) != DONE || read_page(request->words[0]) != DONE)
        return FAILED;
    int status = element_given(request->words[3], &element);
    if (status != DONE)
        return status;
    uint32_t kind = gvrs_cell_with(page.bytes, page.n, spot[0], spot[1], element, GVRS_BY_DIRECTORY, request->compressor, out, 5);
    if (kind < GVRS_STORED)
        return refused_cells(request, kind, out[2]);
    if (request->form != TEXT)
        return show_cell(kind, out);
    printf(kind == GVRS_STORED ? "stored " : kind == GVRS_UNPACKED ? "unpacked " : "");
    print_kind(kind, out[0], (uint32_t)out[1]);
    if (kind != GVRS_FILL && out[0] == FLOAT)
        printf(" (bits %08" PRIx32 ")", (uint32_t)out[1]);
    if (kind != GVRS_FILL)
        printf(" %s %" PRIu64, kind == GVRS_STORED ? "at" : "from", out[2]);
    printf(", tile %" PRIu64 ", number %" PRIu64 "\n", out[3], out[4]);
    return DONE;
}

/* A tile by its rows. It may reach over the grid's edge, and a number that it has there is no cell's. */
static void print_tile(uint64_t tile, uint32_t kind, const uint64_t *is, const uint64_t *element) {
    uint64_t row = tile / is[5] * is[2], column = tile % is[5] * is[3];
    for (uint64_t i = 0; i < is[2] * is[3]; i++) {
        int inside = row + i / is[3] < is[0] && column + i % is[3] < is[1];
        printf(i == 0 ? "" : i % is[3] == 0 ? "\n" : " ");
        if (inside)
            print_kind(kind, element[0], kind == GVRS_FILL ? (uint32_t)element[1] : bits[i]);
        else if (kind == GVRS_FILL)
            printf("outside");
        else
            print_marked("outside", element[0], bits[i]);
    }
    printf("\n");
}

int run_tile(const struct request *request) {
    uint64_t tile, e, out[2], is[13], element[4];
    if (number_given("INDEX", request->words[1], UINT64_MAX, &tile) != DONE || read_page(request->words[0]) != DONE)
        return FAILED;
    int status = element_given(request->words[2], &e);
    if (status != DONE)
        return status;
    uint32_t kind = gvrs_unpack(page.bytes, page.n, tile, e, request->compressor, bits, ROOM, out, 2);
    if (kind < GVRS_STORED)
        return refused_cells(request, kind, out[0]);
    gvrs_page(page.bytes, page.n, is, 13);
    gvrs_element(page.bytes, page.n, e, element, 4);
    print_tile(tile, kind, is, element);
    return DONE;
}

/* A rectangle of cells of an element. */
struct rectangle {
    uint64_t element, row, column, rows, columns;
};

static int rectangle_given(const struct request *request, struct rectangle *r) {
    static const char *const NAMES[] = {"ROW", "COLUMN", "ROWS", "COLUMNS"};
    uint64_t numbers[4];
    if (numbers_given(request, 2, NAMES, 4, numbers) != DONE || read_page(request->words[0]) != DONE)
        return FAILED;
    *r = (struct rectangle){0, numbers[0], numbers[1], numbers[2], numbers[3]};
    return element_given(request->words[1], &r->element);
}

/* Fills kinds and bits, of which `room` may be used. */
static uint32_t ask_cells(const struct request *request, const struct rectangle *r, uint64_t room, uint64_t *out) {
    return gvrs_cells(page.bytes, page.n, request->compressor, r->element, r->row, r->column, r->rows, r->columns, memory, TILE_CELLS,
                      kinds, room, bits, room, out, 1);
}

static const struct field CELLS[] = {{"row", NULL, NULL}, {"column", NULL, NULL}, {"kind", NULL, NULL}, {"value", "", NULL}, {NULL, NULL, NULL}};

/* How many cells of a strip of the rectangle stand before the first that is refused. */
static uint64_t show_strip(const struct rectangle *r, const struct rectangle *strip, uint64_t count, uint64_t type) {
    uint64_t before = count;
    for (uint64_t i = 0; i < count; i++) {
        if (i % strip->columns == 0)
            progress(strip->row - r->row + i / strip->columns, r->rows);
        open_row();
        put_number(strip->row + i / strip->columns);
        put_number(strip->column + i % strip->columns);
        put_cell(kinds[i], type, bits[i]);
        close_row((i + 1) % strip->columns == 0 ? "\n" : " ");
        if (before == count && kinds[i] < GVRS_STORED)
            before = i;
    }
    return before;
}

/* The cells of a rectangle that is not refused and has one, strip by strip; then the first refusal of a cell, by the cell itself. */
static int show_rectangle(const struct request *request, const struct rectangle *r) {
    uint64_t count, element[4], out[3], end = r->row + r->rows, at_once = ROOM / r->columns;
    uint32_t met = 0;
    gvrs_element(page.bytes, page.n, r->element, element, 4);
    for (struct rectangle strip = *r; strip.row < end; strip.row += strip.rows) {
        strip.rows = at_once < end - strip.row ? at_once : end - strip.row;
        ask_cells(request, &strip, ROOM, &count);
        uint64_t before = show_strip(r, &strip, count, element[0]);
        if (met == 0 && before < count)
            met = gvrs_cell_with(page.bytes, page.n, strip.row + before / r->columns, r->column + before % r->columns, r->element,
                                 GVRS_BY_DIRECTORY, request->compressor, out, 3);
    }
    progress(r->rows, r->rows);
    return met == 0 ? DONE : refused_cells(request, met, out[2]);
}

/* Whether the rectangle is refused is asked without room for a cell: then 13 says that it is not, and has a cell. */
int run_cells(const struct request *request) {
    struct rectangle r;
    uint64_t out;
    int status = rectangle_given(request, &r);
    if (status != DONE)
        return status;
    uint32_t number = ask_cells(request, &r, 0, &out);
    if (number != GVRS_ROOM && number != GVRS_ACCEPTED)
        return refused(number, out, NULL);
    open_list(NULL, CELLS);
    status = number == GVRS_ROOM ? show_rectangle(request, &r) : DONE;
    close_list();
    return status;
}

/* Why scores cannot be judged, in the order in which a caller can mend it. */
static const char *why_not_judged(const struct rectangle *r) {
    uint64_t element[4];
    if (r->rows == 0 || r->columns == 0)
        return "the rectangle has no cell";
    if (gvrs_element(page.bytes, page.n, r->element, element, 4) == GVRS_ACCEPTED && element[0] != SHORT)
        return "the element is no Short";
    return "the metadata records named score_rule do not say one rule: there may be one, with ID 1 or 2, or none";
}

static const struct field DEED[] = {
    {"grade", "", NULL}, {"fills", ", fills ", NULL}, {"lowest", ", lowest ", ", no score"}, {"scale", ", scale ", NULL}, {NULL, NULL, NULL},
};

static void show_deed(const char *grade, const uint64_t *out) {
    open_object(DEED, ONE_LINE);
    put_word(grade);
    put_number(out[0]);
    if (out[1] == 1)
        put_value(SHORT, out[2]);
    else
        put_absent();
    put_number(out[3]);
    close_object("\n");
}

int run_deed(const struct request *request) {
    static const char *const WORDS[] = {"certain", "doubtful", "unread"};
    static const int STATUS[] = {DONE, DOUBTFUL, UNREAD};
    struct rectangle r;
    uint64_t out[4];
    int status = rectangle_given(request, &r);
    if (status != DONE)
        return status;
    uint32_t number = gvrs_deed(page.bytes, page.n, request->compressor, r.element, r.row, r.column, r.rows, r.columns, memory,
                                TILE_CELLS, out, 4);
    if (number == GVRS_INPUT)
        return refused(number, out[0], why_not_judged(&r));
    if (number < GVRS_CERTAIN)
        return refused_cells(request, number, out[0]);
    if (!request->quiet)
        show_deed(WORDS[number - GVRS_CERTAIN], out);
    return STATUS[number - GVRS_CERTAIN];
}
