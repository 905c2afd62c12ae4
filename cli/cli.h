/* cli/cli.h: what the files of the command `gvrs` share. */
#ifndef CLI_H
#define CLI_H

#include <inttypes.h>
#include <stddef.h>
#include "gvrs.h"

/* Exit status. Of a deed DONE is certain; of a comparison it is that no cell differs. */
enum { DONE = 0, REFUSED = 1, FAILED = 2, DOUBTFUL = 3, UNREAD = 4, DIFFERENT = 5 };

/* The longest file that the store takes, the most cells of a tile, and a compressor index that no content has. */
enum { LONGEST = 16777216, TILE_CELLS = 524288, NO_COMPRESSOR = 256 };

/* The most elements, and the most compression methods, that are taken for a new page: one more than a page may have, which is refused. */
enum { MOST_GIVEN = 17 };

/* Type codes of elements, and their names. */
enum { INTEGER = 0, INTEGER_CODED = 1, FLOAT = 2, SHORT = 3 };
extern const char *const TYPES[4];

/* What is shown is text, JSON or CSV. */
enum form { TEXT, JSON, CSV };

/* What a command is given. */
struct request {
    char **words;         /* FILE and the others, as they stand */
    int count;            /* how many there are */
    enum form form;       /* in which the answer is shown */
    uint32_t compressor;  /* NO_COMPRESSOR where none is named */
    const char *method;   /* the name of a compression method in its place, or NULL */
    int has_second;       /* whether the second page of a comparison has a compressor index of its own */
    uint32_t second;      /* which */
    const char *other;    /* the name of a method of the second page, or NULL */
    uint64_t most;        /* cells that are shown; UINT64_MAX where none are named */
    int has_time;         /* whether a time is given */
    uint64_t time;        /* milliseconds since 1970 */
    uint64_t wait;        /* seconds; 0 where none are given */
    int quiet;
    int all;              /* whether all that a page says of itself is shown */
    int each;             /* whether several files are checked */
    int partial;          /* whether a replay that stops is written */
    int squeeze;          /* whether a corrected page is squeezed */
    const char *grid, *tile, *uuid, *label; /* of a new page; NULL where not given */
    char *elements[MOST_GIVEN];             /* NAME:TYPE:FILL each */
    int element_count;
    char *methods[MOST_GIVEN];              /* names of compression methods */
    int method_count;
    int no_checksums;
};

/* The file that the command is about, and the second of a comparison: room for the longest and a byte more, so that a longer one is
   refused too. */
struct page {
    const char *name;
    uint64_t n;
    uint8_t bytes[LONGEST + 1];
};
extern struct page page, second_page;

/* Says on standard error what went wrong, or which refusal was given of the page, with a note behind it where there is one: the exit
   status. The words of a refusal are those of gvrs_refusal, unless others are given. */
__attribute__((format(printf, 1, 2))) int failed(const char *format, ...);
int refused(uint32_t number, uint64_t place, const char *note);
int refused_in_words(uint32_t number, uint64_t place, const char *words, const char *note);
int refused_page(const struct page *of, uint32_t number, uint64_t place);

/* Why a page is refused: the rule that it breaks, what breaks it (empty where the rule is of one thing only), the position of its field,
   and what is found and wanted where the rule compares numbers. */
struct reason {
    uint32_t rule;
    char what[60];
    uint64_t position, found, wanted;
    int compared;
};

/* The reason of a refusal of 1 to 9: whether there is one; in words that go behind those of the refusal; said below the refusal, where that
   is wanted. */
extern int why_wanted;
int reason(const struct page *refused, uint32_t number, uint64_t place, struct reason *why);
void say_reason(const struct reason *why, uint32_t number, char *text, size_t room);
void explain(const struct page *refused, uint32_t number, uint64_t place);

/* Reads digits alone, of a number up to `most`: whether that is all there is. */
int read_number(const char *text, uint64_t most, uint64_t *number);

/* The same for an argument; where it is no such number, says so. DONE or FAILED. */
int number_given(const char *what, const char *text, uint64_t most, uint64_t *number);

/* Reads a file whole, or its first `room` bytes: DONE or FAILED. The name - is that of standard input, which can be read once. */
int read_stream(int stream, const char *name, uint8_t *bytes, uint64_t room, uint64_t *n);
int read_file(const char *name, uint8_t *bytes, uint64_t room, uint64_t *n);
int read_page(const char *name);
int read_second_page(const char *name);

/* Reads a file whole, of up to `most` bytes, or as much of a longer one as shows that it is longer. NULL where that fails, which is said. */
uint8_t *read_long(const char *name, uint64_t most, uint64_t *n);

/* Says on standard error how much is done, where that is a terminal, standard output is none, and a second has gone. The last call has
   `done` equal to `all`. */
void progress(uint64_t done, uint64_t all);

/* The element that an argument names by its number or its name: DONE, REFUSED or FAILED. */
int element_given(const char *text, uint64_t *element);

/* Prints a value by its type and bits; one that is no score behind a word and in brackets; a cell by its kind: its value, of a fill its
   value behind a word, of a refusal the number. */
void print_value(uint64_t type, uint32_t pattern);
void print_marked(const char *word, uint64_t type, uint32_t pattern);
void print_kind(uint32_t kind, uint64_t type, uint32_t pattern);

/* Prints a text of a page in quotation marks. */
void print_text(const uint8_t *text, uint64_t n);

/* A field of what is shown: its name, for JSON and CSV; the words before it in text, NULL where it does not stand there; the words in its
   place where there is nothing to show, or NULL. A name that is NULL ends the fields. */
struct field {
    const char *name, *before, *instead;
};

/* How an object is shown as CSV: not, as a line below the names of its fields, or as a line for each name and value. */
enum lines { NO_LINE, ONE_LINE, FACTS };

/* An object, and a list of rows with the same fields, in an object where it has a name. The fields of each are put in their order. As text
   they stand one behind the other, and `end` ends them. */
void show_as(enum form wanted);
void open_object(const struct field *fields, enum lines as_csv);
void close_object(const char *end);
void open_list(const char *name, const struct field *fields);
void close_list(void);
void open_row(void);
void close_row(const char *end);

/* The fields: nothing (null, or an empty field); a number, or nothing; true or false, in text as words; a value of a type; the numbers of
   the bits that are set; a text, in text in quotation marks, and nothing where it is empty; a name or a word; a cell, which is two fields:
   its kind and its value, nothing where it has none. */
void put_absent(void);
void put_number(uint64_t number);
void put_number_if(int present, uint64_t number);
void put_flag(int flag, const char *yes, const char *no);
void put_value(uint64_t type, uint64_t pattern);
void put_set(uint64_t bits);
void put_text(const uint8_t *text, uint64_t n);
void put_name(const uint8_t *name, uint64_t n);
void put_word(const char *word);
void put_cell(uint32_t kind, uint64_t type, uint32_t pattern);

/* The compressor index of a page's first compression method with a name, behind an option: DONE, REFUSED or FAILED. */
int method_given(const char *option, const char *name, const struct page *of, uint32_t *index);

/* Shows the names of an accepted page's compression methods, a row each. */
void show_methods(void);

/* What is said of a page's compressed content where no index is named: how to name one, and the first methods of the page. */
const char *compressor_note(const struct page *of);

/* The refusal of a cell: where it is compressed, with how to name an index. */
int refused_cells(const struct request *request, uint32_t number, uint64_t place);

/* Writes all of some bytes, and sees to it that a folder's names are on the disk: 0, or -1 and errno. */
int write_bytes(int stream, const uint8_t *bytes, uint64_t n);
int settle(const char *folder);

/* The name of a copy in the folder of a file, for mkstemp, or NULL and errno; and that folder, in the copy's own memory. */
char *beside(const char *path);
char *folder_of(char *beside);

/* Makes a new file: it gets its name once it is whole, and where there is such a file nothing is written. DONE or FAILED. */
int write_new(const char *name, const uint8_t *bytes, uint64_t n);

/* The clock's time, in milliseconds since 1970. */
uint64_t clock_now(void);

/* A tile and the bytes that it is to hold, or the text that they are to be made of once the page is there; NULL both where it is to be
   removed. */
struct change {
    uint64_t tile, cells_n, text_n;
    uint8_t *cells;
    const uint8_t *text;
    const char *text_name;
};

/* Corrects FILE by one change, or by several stores, all or none: the exit status. */
int change(const struct request *request, struct change *changes, uint64_t count);

/* Makes a tile's bytes of its text, in memory to be freed: DONE or FAILED. `is` is what the page is, by gvrs_page. */
int pack_text(struct change *c, const uint64_t *is);

/* Makes a front for a score sheet of so many rows and columns: tiles of at most 256 by 256, one element `score`, a Short with the fill
   -1. DONE, REFUSED or FAILED. */
int score_front(uint64_t rows, uint64_t columns, uint8_t *front, uint64_t room, uint64_t *n);

/* The commands. Each gives the exit status. */
int run_new(const struct request *request);
int run_check(const struct request *request);
int run_info(const struct request *request);
int run_tiles(const struct request *request);
int run_metadata(const struct request *request);
int run_cell(const struct request *request);
int run_tile(const struct request *request);
int run_cells(const struct request *request);
int run_deed(const struct request *request);
int run_compare(const struct request *request);
int run_export(const struct request *request);
int run_import(const struct request *request);
int run_store(const struct request *request);
int run_remove(const struct request *request);
int run_replay(const struct request *request);
int run_squeeze(const struct request *request);
int run_sheet_in(const struct request *request);
int run_sheet_out(const struct request *request);

#endif
