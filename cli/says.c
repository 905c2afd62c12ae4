/* cli/says.c: the commands that show what a page says of itself, tiles and metadata, and the methods that info shows. */
#include <stdio.h>
#include <string.h>
#include "cli.h"

/* Room for this many items of a list at once. */
enum { ITEMS = 4096, TILE = 4, RECORD = 9, METHOD = 2 };
static uint64_t numbers[ITEMS * RECORD];

typedef uint32_t list(const uint8_t *file, uint64_t n, uint64_t from, uint64_t *numbers, uint64_t numbers_n, uint64_t *out, uint64_t out_n);

/* Shows each item of a list as a row by `show`, which is given its number: DONE or REFUSED. */
static int show_list(list *ask, uint64_t size, const char *name, const struct field *fields, void (*show)(uint64_t number, const uint64_t *item)) {
    uint64_t from = 0, out[2];
    uint32_t refusal = ask(page.bytes, page.n, from, numbers, 0, out, 2);
    if (refusal != GVRS_ACCEPTED)
        return refused(refusal, out[0], NULL);
    open_list(name, fields);
    do {
        ask(page.bytes, page.n, from, numbers, ITEMS * size, out, 2);
        for (uint64_t i = 0; i < out[0]; i++) {
            open_row();
            show(from + i, numbers + i * size);
            close_row("\n");
        }
        from += out[0];
    } while (out[0] < out[1]);
    close_list();
    return DONE;
}

static const struct field TILES[] = {
    {"tile", "tile ", NULL}, {"record", ": record at ", NULL}, {"packed", ", packed ", NULL}, {"compressor", ", compressor index ", NULL},
    {NULL, NULL, NULL},
};

static void show_stored(uint64_t number, const uint64_t *tile) {
    (void)number;
    put_number(tile[0]);
    put_number(tile[1]);
    put_set(tile[2]);
    put_number_if(tile[3] != NO_COMPRESSOR, tile[3]);
}

static const struct field RECORDS[] = {
    {"record", "metadata ", NULL}, {"name", ": ", NULL}, {"id", ", ID ", NULL}, {"type", ", type ", NULL}, {"bytes", ", ", NULL},
    {"place", " bytes at ", NULL}, {"description", ", ", NULL}, {NULL, NULL, NULL},
};

static void show_record(uint64_t number, const uint64_t *record) {
    put_number(number);
    put_name(page.bytes + record[1], record[2]);
    put_number(record[3]);
    put_number(record[4]);
    put_number(record[6]);
    put_number(record[5]);
    put_text(page.bytes + record[7], record[8]);
}

static const struct field METHODS[] = {{"method", "method ", NULL}, {"name", ": ", ": \"\""}, {NULL, NULL, NULL}};

static void show_method(uint64_t number, const uint64_t *method) {
    put_number(number);
    put_text(page.bytes + method[0], method[1]);
}

/* Where reasons are wanted, up to four methods too, each with as much of its name as 32 plain characters hold. */
const char *compressor_note(const struct page *of) {
    static char note[400];
    uint64_t out[2] = {0, 0};
    int at = snprintf(note, sizeof note, "--compressor N unpacks that of the index N, but for Floats");
    if (!why_wanted || gvrs_methods(of->bytes, of->n, 0, numbers, 4 * METHOD, out, 2) != GVRS_ACCEPTED)
        return note;
    for (uint64_t i = 0; i < out[0]; i++) {
        uint64_t n = 0;
        const char *name = (const char *)of->bytes + numbers[METHOD * i];
        while (n < numbers[METHOD * i + 1] && n < 32 && name[n] > 0x20 && name[n] < 0x7f)
            n++;
        at += snprintf(note + at, sizeof note - (size_t)at, "%s %" PRIu64 " %.*s", i == 0 ? "; the page names the methods" : ",", i, (int)n, name);
    }
    if (out[0] < out[1])
        snprintf(note + at, sizeof note - (size_t)at, " and more");
    return note;
}

void show_methods(void) {
    show_list(gvrs_methods, METHOD, "methods", METHODS, show_method);
}

/* A content's compressor index has one byte, so a method behind the first 256 has none. */
int method_given(const char *option, const char *name, const struct page *of, uint32_t *index) {
    uint64_t out[2];
    uint32_t number = gvrs_methods(of->bytes, of->n, 0, numbers, METHOD * NO_COMPRESSOR, out, 2);
    if (number != GVRS_ACCEPTED)
        return refused_page(of, number, out[0]);
    for (uint32_t i = 0; i < out[0]; i++)
        if (numbers[METHOD * i + 1] == strlen(name) && memcmp(of->bytes + numbers[METHOD * i], name, strlen(name)) == 0) {
            *index = i;
            return DONE;
        }
    return failed("%s is '%s', and %s has no compression method of that name; `gvrs info` shows those that it has", option, name, of->name);
}

int run_tiles(const struct request *request) {
    return read_page(request->words[0]) == DONE ? show_list(gvrs_tiles, TILE, NULL, TILES, show_stored) : FAILED;
}

int run_metadata(const struct request *request) {
    return read_page(request->words[0]) == DONE ? show_list(gvrs_metadata, RECORD, NULL, RECORDS, show_record) : FAILED;
}
