/* tests/installed/null.c: whether every function of include/gvrs.h answers the same with null pointers of length 0 as with others.

       ./null PAGE FRONT_LENGTH

   PAGE is a page with a stored tile. Prints how many calls were tried; fails at the first that differs. */
#include <inttypes.h>
#include <stdio.h>
#include <string.h>
#include "gvrs.h"

enum { LONGEST = 1 << 16, CALLS = 128 };
static uint8_t file[LONGEST], open_page[LONGEST], made[LONGEST];

/* What is passed with the length 0. */
struct none {
    uint8_t *bytes;
    uint32_t *numbers;
    uint64_t *out;
};

/* Answers, one behind the other. */
static uint64_t answers[2][CALLS];

static int ask(struct none no, uint64_t n, uint64_t front_n, uint64_t *answer) {
    uint64_t *at = answer, open_n = 0, out[2] = {0, 0};
    uint32_t cells[64];
    /* No file at all, and no room for an answer. */
    *at++ = gvrs_check(no.bytes, 0, no.out, 0);
    *at++ = gvrs_explain(no.bytes, 0, no.out, 0);
    *at++ = gvrs_check_start(no.bytes, 0, 100, no.out, 0);
    *at++ = gvrs_check_rest(no.bytes, 0, no.out, 0);
    *at++ = gvrs_page(no.bytes, 0, no.out, 0);
    *at++ = gvrs_element(no.bytes, 0, 0, no.out, 0);
    *at++ = gvrs_page_said(no.bytes, 0, no.out, 0);
    *at++ = gvrs_element_said(no.bytes, 0, 0, no.out, 0);
    *at++ = gvrs_cell(no.bytes, 0, 0, 0, 0, GVRS_BY_WALK, no.out, 0);
    *at++ = gvrs_cell_with(no.bytes, 0, 0, 0, 0, GVRS_BY_DIRECTORY, 256, no.out, 0);
    *at++ = gvrs_unpack(no.bytes, 0, 0, 0, 256, no.numbers, 0, no.out, 0);
    *at++ = gvrs_cells(no.bytes, 0, 256, 0, 0, 0, 1, 1, no.numbers, 0, no.numbers, 0, no.numbers, 0, no.out, 0);
    *at++ = gvrs_deed(no.bytes, 0, 256, 0, 0, 0, 1, 1, no.numbers, 0, no.out, 0);
    *at++ = gvrs_compare(no.bytes, 0, 256, no.bytes, 0, 256, no.numbers, 0, no.numbers, 0, no.out, 0);
    *at++ = gvrs_m32_write(no.numbers, 0, no.bytes, 0);
    *at++ = gvrs_m32_read(no.bytes, 0, no.numbers, 0, no.out, 0);
    *at++ = gvrs_content(no.bytes, 0, 0, 0, no.out, 0);
    *at++ = gvrs_front(no.numbers, 0, no.bytes, 0, no.numbers, 0, no.bytes, 0, no.bytes, 0, no.out, 0);
    *at++ = gvrs_lay_down(no.bytes, 0, 1, no.numbers, 0, no.bytes, 0, no.bytes, 0, no.out, 0);
    *at++ = gvrs_sheet_in(no.bytes, 0, 1, no.bytes, 0, no.bytes, 0, no.out, 0);
    *at++ = gvrs_sheet_out(no.bytes, 0, 256, no.numbers, 0, no.bytes, 0, no.out, 0);
    *at++ = gvrs_open_page(no.bytes, 0, 0, 1, no.out, 0);
    *at++ = gvrs_store_tile(no.bytes, 0, 0, 0, no.bytes, 0, no.out, 0);
    *at++ = gvrs_remove_tile(no.bytes, 0, 0, 0, no.out, 0);
    *at++ = gvrs_close_page(no.bytes, 0, 0, 1, no.out, 0);
    *at++ = gvrs_replay(no.bytes, 0, 0, no.bytes, 0, no.out, 0);
    *at++ = gvrs_squeeze(no.bytes, 0, 0, no.out, 0, no.out, 0);
    *at++ = gvrs_check_plan(no.bytes, 0, 0, no.out, 0, no.out, 0);
    *at++ = gvrs_tight_plan(no.bytes, 0, 0, no.out, 0, no.out, 0);
    *at++ = gvrs_open_page_stopped(no.bytes, 0, 0, 1, 9, no.out, 0);
    *at++ = gvrs_store_tile_stopped(no.bytes, 0, 0, 0, no.bytes, 0, 9, no.out, 0);
    *at++ = gvrs_remove_tile_stopped(no.bytes, 0, 0, 0, 9, no.out, 0);
    *at++ = gvrs_close_page_stopped(no.bytes, 0, 0, 1, 9, no.out, 0);
    *at++ = gvrs_squeeze_stopped(no.bytes, 0, 0, no.out, 0, 9, no.out, 0);
    *at++ = gvrs_list(no.bytes, 0, no.bytes, 0);
    *at++ = gvrs_is_identifier(no.bytes, 0);
    *at++ = gvrs_is_utf8(no.bytes, 0);
    *at++ = gvrs_compare_names(no.bytes, 0, no.bytes, 0, no.out, 0);
    *at++ = gvrs_find_element(no.bytes, 0, no.bytes, 0, no.out, 0);
    *at++ = gvrs_tiles(no.bytes, 0, 0, no.out, 0, no.out, 0);
    *at++ = gvrs_metadata(no.bytes, 0, 0, no.out, 0, no.out, 0);
    *at++ = gvrs_methods(no.bytes, 0, 0, no.out, 0, no.out, 0);
    *at++ = gvrs_find_metadata(no.bytes, 0, no.bytes, 0, 1, no.out, 0);
    /* A page, and none of what else is passed. */
    *at++ = gvrs_check(file, n, no.out, 0);
    *at++ = gvrs_explain(file, n, no.out, 0);
    *at++ = gvrs_check_start(file, n, n, no.out, 0);
    *at++ = gvrs_check_rest(file, n, no.out, 0);
    *at++ = gvrs_page(file, n, no.out, 0);
    *at++ = gvrs_element(file, n, 0, no.out, 0);
    *at++ = gvrs_page_said(file, n, no.out, 0);
    *at++ = gvrs_element_said(file, n, 0, no.out, 0);
    *at++ = gvrs_cell(file, n, 2, 1, 0, GVRS_BY_RECORDS, no.out, 0);
    *at++ = gvrs_cell_with(file, n, 2, 1, 0, GVRS_BY_DIRECTORY, 256, no.out, 0);
    *at++ = gvrs_unpack(file, n, 2, 0, 256, no.numbers, 0, out, 2);
    *at++ = out[1];
    *at++ = gvrs_cells(file, n, 256, 0, 0, 0, 1, 1, no.numbers, 0, no.numbers, 0, no.numbers, 0, no.out, 0);
    *at++ = gvrs_cells(file, n, 256, 0, 0, 0, 0, 1, no.numbers, 0, no.numbers, 0, no.numbers, 0, no.out, 0);
    *at++ = gvrs_cells(file, n, 256, 0, 2, 0, 1, 3, no.numbers, 0, cells, 3, cells + 3, 3, no.out, 0);
    *at++ = cells[5];
    *at++ = gvrs_deed(file, n, 256, 0, 2, 0, 1, 2, no.numbers, 0, out, 2);
    *at++ = gvrs_compare(file, n, 256, file, n, 256, no.numbers, 0, no.numbers, 0, out, 2);
    *at++ = gvrs_compare(file, n, 256, no.bytes, 0, 256, no.numbers, 0, no.numbers, 0, out, 2);
    *at++ = out[1];
    *at++ = gvrs_m32_write(cells, 2, no.bytes, 0);
    *at++ = gvrs_m32_read(file, n, no.numbers, 0, no.out, 0);
    *at++ = gvrs_content(file, n, 2, 0, no.out, 0);
    *at++ = gvrs_lay_down(file, front_n, 1, no.numbers, 0, no.bytes, 0, made, LONGEST, out, 2);
    *at++ = out[0];
    *at++ = gvrs_lay_down(file, front_n, 1, no.numbers, 0, no.bytes, 0, no.bytes, 0, no.out, 0);
    *at++ = gvrs_sheet_in(file, front_n, 1, no.bytes, 0, made, LONGEST, no.out, 0);
    *at++ = gvrs_sheet_out(file, n, 256, no.numbers, 0, no.bytes, 0, no.out, 0);
    *at++ = gvrs_list(file, n, no.bytes, 0);
    *at++ = gvrs_compare_names(file, 4, no.bytes, 0, no.out, 0);
    *at++ = gvrs_find_element(file, n, no.bytes, 0, no.out, 0);
    *at++ = gvrs_tiles(file, n, 0, no.out, 0, out, 2);
    *at++ = out[1];
    *at++ = gvrs_metadata(file, n, 0, no.out, 0, no.out, 0);
    *at++ = gvrs_methods(file, n, 0, no.out, 0, no.out, 0);
    *at++ = gvrs_find_metadata(file, n, no.bytes, 0, 1, no.out, 0);
    /* An open page. */
    memcpy(open_page, file, LONGEST);
    *at++ = gvrs_open_page(open_page, LONGEST, n, 1, &open_n, 1);
    *at++ = gvrs_store_tile(open_page, LONGEST, open_n, 0, no.bytes, 0, no.out, 0);
    *at++ = gvrs_store_tile_stopped(open_page, LONGEST, open_n, 0, no.bytes, 0, 9, no.out, 0);
    *at++ = gvrs_replay(open_page, LONGEST, open_n, no.bytes, 0, no.out, 0);
    *at++ = gvrs_squeeze(open_page, LONGEST, open_n, no.out, 0, no.out, 0);
    *at++ = gvrs_squeeze_stopped(open_page, LONGEST, open_n, no.out, 0, 9, no.out, 0);
    *at++ = gvrs_check_plan(open_page, LONGEST, open_n, no.out, 0, no.out, 0);
    *at++ = gvrs_tight_plan(open_page, LONGEST, open_n, no.out, 0, out, 2);
    *at++ = out[1];
    *at++ = gvrs_remove_tile(open_page, LONGEST, open_n, 0, no.out, 0);
    *at++ = gvrs_close_page(open_page, LONGEST, open_n, 1, no.out, 0);
    return (int)(at - answer);
}

int main(int argc, char **argv) {
    static uint8_t byte;
    static uint32_t number;
    static uint64_t long_number;
    uint64_t front_n = 0;
    FILE *stream = argc == 3 && sscanf(argv[2], "%" SCNu64, &front_n) == 1 ? fopen(argv[1], "rb") : NULL;
    uint64_t n = stream == NULL ? 0 : fread(file, 1, sizeof file, stream);
    if (n == 0 || fclose(stream) != 0 || front_n > n)
        return fprintf(stderr, "usage: null PAGE FRONT_LENGTH\n"), 2;
    int calls = ask((struct none){&byte, &number, &long_number}, n, front_n, answers[0]);
    ask((struct none){NULL, NULL, NULL}, n, front_n, answers[1]);
    for (int i = 0; i < calls; i++)
        if (answers[0][i] != answers[1][i])
            return printf("answer %d: %" PRIu64 ", of null pointers %" PRIu64 "\n", i, answers[0][i], answers[1][i]), 1;
    printf("%d answers\n", calls);
    return 0;
}
