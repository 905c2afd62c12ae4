/* cli/sheet.c: score sheets moved into pages, and pages out to score sheets: sheet-in, sheet-out. What is made is a new file: no other is
   replaced. */
#define _DEFAULT_SOURCE
#define _XOPEN_SOURCE 700
#include <errno.h>
#include <stdio.h>
#include <stdlib.h>
#include <string.h>
#include "cli.h"

/* The longest sheet: a length of four bytes, and as many as it can state. */
static const uint64_t LONGEST_SHEET = 4 + (uint64_t)UINT32_MAX;

/* FRONT is a front by itself, or a page, of which the front is taken. */
static uint64_t front_length(void) {
    uint64_t is[13];
    return gvrs_page(page.bytes, page.n, is, 13) == GVRS_ACCEPTED ? is[8] : page.n;
}

static int move_in(const uint8_t *sheet, uint64_t sheet_n, uint64_t time, const char *name, int own) {
    static uint8_t file[LONGEST];
    uint64_t n;
    uint32_t number = gvrs_sheet_in(page.bytes, front_length(), time, sheet, sheet_n, file, sizeof file, &n, 1);
    if (number == GVRS_INPUT)
        return refused(number, n, time == 0 ? "the time is 0"
                                  : own     ? "SHEET is no score sheet"
                                            : "SHEET is no score sheet, or FRONT has not its rows and columns and one element only, a Short with "
                                              "the fill -1");
    if (number == GVRS_CEILING)
        return refused(number, n, own ? "of the page that it would make" : "of FRONT, or of the page that it would make");
    if (number != GVRS_ACCEPTED)
        return refused(number, n, NULL);
    if (write_new(name, file, n) != DONE)
        return FAILED;
    printf("page of %" PRIu64 " bytes\n", n);
    return DONE;
}

/* Without FRONT one is made of the sheet's own rows and columns, which stand behind its length and its version; of bytes that have none it is
   that of one cell, and what is refused then is the sheet. */
static int own_front(const char *name, const uint8_t *sheet, uint64_t sheet_n) {
    uint64_t rows = sheet_n < 9 ? 1 : 256 * sheet[5] + sheet[6], columns = sheet_n < 9 ? 1 : 256 * sheet[7] + sheet[8];
    page.name = name;
    return score_front(rows == 0 ? 1 : rows, columns == 0 ? 1 : columns, page.bytes, sizeof page.bytes, &page.n);
}

int run_sheet_in(const struct request *request) {
    uint64_t sheet_n;
    int own = request->count == 2;
    char *const *words = request->words + !own;
    if (!own && read_page(request->words[0]) != DONE)
        return FAILED;
    uint8_t *sheet = read_long(words[0], LONGEST_SHEET, &sheet_n);
    if (sheet == NULL)
        return FAILED;
    int status = own ? own_front(words[0], sheet, sheet_n) : DONE;
    if (status == DONE)
        status = move_in(sheet, sheet_n, request->has_time ? request->time : clock_now(), words[1], own);
    free(sheet);
    return status;
}

/* Why a page can't be a sheet, in the order in which a caller can mend it. A deed of the first cell tells the rule. */
static const char *why_no_sheet(const struct request *request, const uint64_t *is) {
    uint64_t element[4], deed[4];
    uint32_t memory;
    if (is[0] > 65535 || is[1] > 65535 || 9 + 2 * is[0] * is[1] > LONGEST_SHEET)
        return "the grid has more rows, columns or cells than a sheet can have";
    gvrs_element(page.bytes, page.n, 0, element, 4);
    if (is[6] != 1 || element[0] != SHORT || element[1] != 65535)
        return "the page has not one element only, a Short with the fill -1";
    uint32_t number = gvrs_deed(page.bytes, page.n, request->compressor, 0, 0, 0, 1, 1, &memory, 0, deed, 4);
    if (number == GVRS_INPUT || (number >= GVRS_CERTAIN && deed[3] != 1000))
        return "the metadata records named score_rule do not say the first rule";
    if (number >= GVRS_CERTAIN)
        return "a cell has a number that is neither -1 nor from 0 to 1000";
    return "a cell has a number that is neither -1 nor from 0 to 1000, or the metadata records named score_rule do not say the first rule";
}

int run_sheet_out(const struct request *request) {
    static uint32_t memory[TILE_CELLS];
    uint64_t is[13], n, long_ = 0;
    if (read_page(request->words[0]) != DONE)
        return FAILED;
    uint32_t number = gvrs_page(page.bytes, page.n, is, 13);
    if (number != GVRS_ACCEPTED)
        return refused(number, is[0], NULL);
    if (is[0] <= 65535 && is[1] <= 65535 && 9 + 2 * is[0] * is[1] <= LONGEST_SHEET)
        long_ = 9 + 2 * is[0] * is[1];
    uint8_t *sheet = malloc(long_ + 1);
    if (sheet == NULL)
        return failed("%s: a sheet of %" PRIu64 " bytes: %s", page.name, long_, strerror(errno));
    number = gvrs_sheet_out(page.bytes, page.n, request->compressor, memory, TILE_CELLS, sheet, long_, &n, 1);
    int status = number == GVRS_ACCEPTED ? write_new(request->words[1], sheet, n)
               : number == GVRS_INPUT    ? refused(number, n, why_no_sheet(request, is))
                                         : refused_cells(request, number, n);
    free(sheet);
    if (status == DONE)
        printf("sheet of %" PRIu64 " by %" PRIu64 " scores, %" PRIu64 " bytes\n", is[0], is[1], n);
    return status;
}
