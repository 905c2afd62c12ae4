/* Gridfour Virtual Raster Store files, version 1.4: the check of a file, whole or in two halves, why it is refused, what a page is, reads of its cells,
   compressed ones too, whether its scores are certain, in which cells two pages differ, M32 codes, its elements by their names, its
   tiles, metadata and methods, the front of a new one from a description, the laying down of it, score sheets moved in and out, the
   correcting and squeezing of one where it lies, and the listing of a file.

   Link with libgvrs_c.a, which tools/library writes to crates/gvrs_c/out/. A file is the bytes of the whole file, n of
   them, but for gvrs_check_start. `out` takes the numbers that a function names, in their order; a shorter one takes those that
   fit, and the answer is the same. A lay-down also writes the buffer that it is given for the file, and so does a move of a score sheet,
   out of a page that for the sheet; gvrs_front that for the front; a correction the one that the page lies in, gvrs_tight_plan the plan
   that it makes, a listing the buffer for its text, an unpacking that for the cells, gvrs_cells those for kinds and bits, gvrs_compare its
   list, gvrs_tiles, gvrs_metadata and gvrs_methods their numbers, M32 those for bytes and numbers; gvrs_cells, gvrs_deed, gvrs_compare
   and gvrs_sheet_out the memory lent to them, gvrs_squeeze its plan, which holds the same numbers afterwards. Nothing else is written.

   The caller sees to it that each pointer is that of as many elements as are named, where one that names none may be null, in every
   function, also `out` and what is only lent; that what is written (`out`, the buffers and the memory) overlaps nothing else that is
   passed; that numbers of 32 bits are aligned to 4 bytes, those of 64 bits, `out` and plans among them, to 8; and that the calling thread
   has 320 KiB of stack left. Any number of threads may call at once, the same function too: a call uses nothing but what it is passed and
   its own stack. What one call writes is passed to no other meanwhile. */
#ifndef GVRS_H
#define GVRS_H

#include <stdint.h>

#ifdef __cplusplus
extern "C" {
#endif

/* The version of this header; CHANGELOG.md has what each brought. GVRS_VERSION below is a refusal. */
#define GVRS_LIBRARY_VERSION "1.1.0"

/* The version of the library that is linked: that of the header with which tools/install installed it. It is no function of the library as
   tools/library writes it: tools/install adds it, to the static library and to the shared one. */
const char *gvrs_version(void);

/* What a function answers: a refusal's number, or what it found. */
enum {
    GVRS_ACCEPTED = 0,     /* the file is accepted; the front is made; the page is laid down, moved out or corrected; the page, the element, the
                              rectangle or the list is there */
    GVRS_NOT_GVRS = 1,     /* fewer than 16 bytes, or the first twelve differ */
    GVRS_VERSION = 2,      /* not version 1.4; for the library's own see GVRS_LIBRARY_VERSION */
    GVRS_HEADER = 3,       /* header record at fault: also a name or a text, as gvrs_is_identifier and gvrs_is_utf8 say */
    GVRS_CEILING = 4,      /* a house ceiling is passed, or a correction would pass that of the file */
    GVRS_OPENED = 5,       /* time opened for writing is not zero */
    GVRS_CHAIN = 6,        /* chain at fault */
    GVRS_CHECKSUM = 7,     /* checksum at fault */
    GVRS_BODY = 8,         /* body of a tile or metadata record at fault: also its name or description */
    GVRS_DIRECTORY = 9,    /* directory at fault */
    GVRS_OUTSIDE = 10,     /* row, column, element, tile or rectangle asked for, or tile to correct, not in the grid */
    GVRS_COMPRESSED = 11,  /* content asked for is compressed; of a cell: and not of the compressor index named, or of a Float */
    GVRS_INPUT = 12,       /* input wrong: of a front, a lay-down, a score sheet, a correction, a correction log, a plan or a deed, or more first bytes than the
                              stated length; of a comparison, two pages that differ in grid, tile sides or element types */
    GVRS_ROOM = 13,        /* lay-down output, a front's buffer, a score sheet's buffer, a page's for a correction, one for the cells of a rectangle, or one for a
                              plan, too short */
    GVRS_MALFORMED = 14,   /* compressed content malformed, or a Short in it out of range */
    GVRS_NOT_OPEN = 15,    /* no page that is open for writing */
    GVRS_INCOMPLETE = 16,  /* a byte that a stage needs is not given */
    GVRS_STORED = 32,      /* the cell is stored, the content is present, the name is found */
    GVRS_FILL = 33,        /* the cell is fill, the tile is absent, no element or metadata record has the name */
    GVRS_UNPACKED = 34,    /* the cell comes out of compressed content */
    GVRS_CERTAIN = 64,     /* no cell is fill or -1, and every score is from 900 to 1000, or by the second rule from 9500 to 10000 */
    GVRS_DOUBTFUL = 65,    /* no cell is fill or -1, and some score is not */
    GVRS_UNREAD = 66       /* some cell is fill or -1 */
};

/* A refusal in words, by its number; README.md's table of refusals says more of each. Of any other number `no refusal`. */
#if defined(__cplusplus) || (defined(__STDC_VERSION__) && __STDC_VERSION__ >= 199901L)
static inline
#elif defined(__GNUC__)
static __inline__
#else
static
#endif
const char *gvrs_refusal(uint32_t number) {
    switch (number) {
    case 1: return "no GVRS file";
    case 2: return "not version 1.4";
    case 3: return "header record at fault";
    case 4: return "more than this store takes";
    case 5: return "opened for writing and not closed";
    case 6: return "records do not follow each other up to the last byte";
    case 7: return "a record's checksum is wrong";
    case 8: return "what a tile or metadata record holds is at fault";
    case 9: return "a directory is at fault";
    case 10: return "what is asked for is not in the grid";
    case 11: return "the content asked for is compressed";
    case 12: return "input wrong";
    case 13: return "a buffer is too short";
    case 14: return "the compressed content asked for is malformed";
    case 15: return "no page that is open for writing";
    case 16: return "a byte that a stage needs is not given";
    default: return "no refusal";
    }
}

/* What a rule of gvrs_explain asks, said where it is broken, in words; docs/LAYOUT.md has the rules in their order. */
#if defined(__cplusplus) || (defined(__STDC_VERSION__) && __STDC_VERSION__ >= 199901L)
static inline
#elif defined(__GNUC__)
static __inline__
#else
static
#endif
const char *gvrs_rule(uint32_t rule) {
    switch (rule) {
    case 1: return "fewer than 16 bytes";
    case 2: return "no GVRS mark";
    case 3: return "first version number is not 1";
    case 4: return "second version number is not 4";
    case 5: return "header's length is no multiple of 8";
    case 6: return "header's length is negative";
    case 7: return "header ends past the file";
    case 8: return "header's type is not 6";
    case 9: return "a side is 0";
    case 10: return "a side is negative";
    case 11: return "checksum flag is neither 0 nor 1";
    case 12: return "raster space code is above 2";
    case 13: return "coordinate system code is above 2";
    case 14: return "there is no element";
    case 15: return "the number of elements is negative";
    case 16: return "the element entries do not fit the header";
    case 17: return "an element's type code is above 3";
    case 18: return "an element's name is no identifier of at most 32 characters";
    case 19: return "two elements have the same name";
    case 20: return "an element's label is not UTF-8";
    case 21: return "an element's description is not UTF-8";
    case 22: return "an element's unit is not UTF-8";
    case 23: return "the number of compression methods is negative";
    case 24: return "the fields do not fit the header";
    case 25: return "more than 7 padding bytes in the header";
    case 26: return "the product label is not UTF-8";
    case 27: return "more bytes than a file may have";
    case 28: return "a side is more than this store takes";
    case 29: return "more tiles than this store takes";
    case 30: return "more elements than this store takes";
    case 31: return "more bytes in a tile than this store takes";
    case 32: return "opened for writing and not closed";
    case 33: return "a record's length is less than 16";
    case 34: return "a record's length is negative";
    case 35: return "a record's length is no multiple of 8";
    case 36: return "a record ends past the file";
    case 37: return "a record's type is above 5";
    case 38: return "a record's checksum is wrong";
    case 39: return "a tile index is negative";
    case 40: return "a tile index is not below the tiles";
    case 41: return "a record's fields do not fit it";
    case 42: return "a record's length is not the least that holds its fields";
    case 43: return "an element's length in a tile is 0";
    case 44: return "an element's length in a tile is more than uncompressed";
    case 45: return "a metadata record's content length is negative";
    case 46: return "a metadata record's name is no identifier of at most 32 characters";
    case 47: return "a metadata record's data type is above 9";
    case 48: return "a metadata record's description is not UTF-8";
    case 49: return "the reference to the tile directory is of no such record";
    case 50: return "there is another tile directory";
    case 51: return "the tile directory's format is not 0";
    case 52: return "the tile directory's flag of standard references is neither 0 nor 1";
    case 53: return "the rectangle of tiles starts at a negative number";
    case 54: return "a side of the rectangle of tiles is negative";
    case 55: return "the rectangle of tiles ends past the tiles";
    case 56: return "the references do not fit the tile directory";
    case 57: return "more than 7 padding bytes in the tile directory";
    case 58: return "a tile record is not listed at its index";
    case 59: return "a reference is of no tile record with its index";
    case 60: return "the reference to the metadata directory is of no such record";
    case 61: return "there is another metadata directory";
    case 62: return "the number of entries in the metadata directory is negative";
    case 63: return "the entries do not fit the metadata directory";
    case 64: return "more than 7 padding bytes in the metadata directory";
    case 65: return "the metadata directory has not as many entries as there are metadata records";
    case 66: return "a metadata record is not listed once";
    case 67: return "two metadata records have the same name and ID";
    case 68: return "the reference to the file-space directory is of no such record";
    case 69: return "there is another file-space directory";
    case 70: return "the file-space directory has no entry";
    case 71: return "the number of entries in the file-space directory is negative";
    case 72: return "the entries do not fit the file-space directory";
    case 73: return "more than 7 padding bytes in the file-space directory";
    case 74: return "the file-space directory has not as many entries as there are free-space records";
    case 75: return "a free-space record is not listed once";
    default: return "no rule";
    }
}

/* How a cell is found: every number but 1 and 2 is the directory. */
enum {
    GVRS_BY_DIRECTORY = 0,
    GVRS_BY_WALK = 1,
    GVRS_BY_RECORDS = 2    /* the walk without stage 9: from the records alone, whatever the directories hold */
};

/* 0 where the file is accepted, and out[0] is 0; else the refusal's number, and out[0] is its place. */
uint32_t gvrs_check(const uint8_t *file, uint64_t n, uint64_t *out, uint64_t out_n);

/* As gvrs_check, and why: out[0] is the place, out[1] the rule (gvrs_rule; 0 where the file is accepted), out[2] the number of what breaks
   it, out[3] the position of its field, out[4] what is found and out[5] what is wanted; zeros where the file is accepted. Every rule before
   it, in the order of docs/LAYOUT.md, holds. */
uint32_t gvrs_explain(const uint8_t *file, uint64_t n, uint64_t *out, uint64_t out_n);

/* Stages 1 to 5, from the first first_n bytes of a file of `length` bytes: 0 where they accept, else the refusal's number; 12 where
   more bytes are given than the file has, 16 where a stage needs a byte that is not given. out[0] is the place, 0. out[1] is how many
   first bytes that stage needs where the answer is 16, else 0. Any answer but 12 and 16 is that of stages 1 to 5 on each file of
   that length which begins so. */
uint32_t gvrs_check_start(const uint8_t *first, uint64_t first_n, uint64_t length, uint64_t *out, uint64_t out_n);

/* The whole check, of the whole file, which begins by repeating gvrs_check_start; its answers are those of gvrs_check. */
uint32_t gvrs_check_rest(const uint8_t *file, uint64_t n, uint64_t *out, uint64_t out_n);

/* What a page is: 0, and out[0] to out[12] are its grid rows and grid columns, its tile rows and tile columns, its tiles down and tiles
   across, its elements, the bytes of a tile (uncompressed, all elements together), the length of the front (where the header ends),
   the number of its tile records, that of its metadata records, the time modified, and 1 where checksums are on, else 0. Else the
   refusal's number, out[0] is its place, and the others are 0. The front is the first out[8] bytes of the file. */
uint32_t gvrs_page(const uint8_t *file, uint64_t n, uint64_t *out, uint64_t out_n);

/* As gvrs_page, and what the page says of itself: out[0] to out[12] are those of gvrs_page; out[13] and out[14] place and length of its
   product label, in UTF-8, the place just behind the length field also where the length is 0; out[15] the place of its UUID, 16 bytes;
   out[16] the number of its compression methods; out[17] its raster space (0 unspecified, 1 point, 2 area); out[18] its coordinate system
   (0 unspecified, 1 Cartesian, 2 geographic); out[19] and out[20] place and length of its coordinates, eighteen Doubles. Else the
   refusal's number, out[0] is its place, and the others are 0. */
uint32_t gvrs_page_said(const uint8_t *file, uint64_t n, uint64_t *out, uint64_t out_n);

/* What an element is, by its number, counted from 0: 0, and out[0] is its type code (0 Integer, 1 integer-coded, 2 Float, 3 Short), out[1]
   the bits of its fill (16 of a Short), out[2] where its name starts in the file and out[3] the name's length, 1 to 32, out[4] and
   out[5] place and length of its unit of measure, in UTF-8: the place is just behind the unit's length field, also where the length
   is 0. Else the refusal's number, 10 where the page has no such element, out[0] is its place, and the others are 0. An `out` of more
   than 4 numbers took 4 before the unit was told. */
uint32_t gvrs_element(const uint8_t *file, uint64_t n, uint64_t element, uint64_t *out, uint64_t out_n);

/* As gvrs_element, and what the page says of it: out[0] to out[5] are those of gvrs_element; out[6] and out[7] place and length of its
   label, out[8] and out[9] those of its description, as of its unit; out[10] whether it is continuous, the byte of the header; out[11] and
   out[12] the bits of its minimum and maximum, of its own type (16 of a Short; of an integer-coded element its integers); out[13] to
   out[17] the bits of the Floats of an integer-coded element: minimum, maximum, fill, scale and offset, 0 of every other. Minimum, maximum
   and Floats are what the header holds: they are not judged, and no cell is held to them. Else the refusal's number, 10 where the page has
   no such element, out[0] is its place, and the others are 0. */
uint32_t gvrs_element_said(const uint8_t *file, uint64_t n, uint64_t element, uint64_t *out, uint64_t out_n);

/* A cell, by row, column and element number, each counted from 0: 32 stored, 33 fill, else the refusal's number. out[0] is the
   type code (0 Integer, 1 integer-coded, 2 Float, 3 Short), out[1] the bits of the value, out[2] the place of a stored cell's
   first byte, 0 of a fill, out[3] the index of the cell's tile and out[4] the cell's number inside the tile, by rows, of a fill as
   of a stored cell; on a refusal out[2] is its place, and the others are 0. An `out` of more than 3 numbers took 3 before tile and
   number were told. */
uint32_t gvrs_cell(const uint8_t *file, uint64_t n, uint64_t row, uint64_t column, uint64_t element, uint32_t route,
                   uint64_t *out, uint64_t out_n);

/* The same, where compressed content of an element that is no Float is unpacked if its compressor index is the one named: 34, and
   out is as for a stored cell, but out[2] is the start of the element's content. Content of that index that is malformed, or has a
   Short out of range, is 14, at the tile record, for every cell of that element there; of any other index, or of a Float, it is 11.
   No content has an index above 255; gvrs_cell is this with 256. What a cell is, exactly, and that it is nothing else: CellIs and
   FiveKinds in crates/cells/specs/CellExactly.antt. */
uint32_t gvrs_cell_with(const uint8_t *file, uint64_t n, uint64_t row, uint64_t column, uint64_t element, uint32_t route,
                        uint32_t compressor, uint64_t *out, uint64_t out_n);

/* Every cell of an element in a tile, row by row, its bits as gvrs_cell gives them (16 of a Short): 32 stored, 34 unpacked, out[0] the
   start of their content and out[1] their number; 33 absent, 0 and 0; else the refusal's number, its place and 0. `cells` takes them
   where they fit whole, and what stands behind them stays; else it is as it was. */
uint32_t gvrs_unpack(const uint8_t *file, uint64_t n, uint64_t tile, uint64_t element, uint32_t compressor,
                     uint32_t *cells, uint64_t cells_n, uint64_t *out, uint64_t out_n);

/* The cells of an element in a rectangle, by rows: `rows` rows from `row` on and `columns` columns from `column` on. 0, and out[0] is
   their number, rows times columns; else the refusal's number, out[0] is its place, and kinds and bits are as they were. Refused, in
   this order: as by gvrs_check; 10 where the page has no such element, or where row + rows is more than the grid's rows or column +
   columns more than its columns (an empty rectangle too; the sums do not wrap); 13, at 0, where kinds_n or bits_n is less than the
   number of cells.

   The cell in row r and column c of the rectangle, each counted from 0, has kinds[r * columns + c] and bits[r * columns + c]: what
   gvrs_cell_with answers for it with that compressor index, which is 32, 33, 34, 11 or 14 (proved: FiveKinds), and the bits of its
   value, 0 where it is 11 or 14. What stands behind the last cell's stays.

   memory is numbers that the call may use, memory_n of them, in any state, left in any: 524,288 let every tile be unpacked once;
   fewer, or none, cost time on compressed tiles and change no answer. */
uint32_t gvrs_cells(const uint8_t *file, uint64_t n, uint32_t compressor, uint64_t element, uint64_t row, uint64_t column,
                    uint64_t rows, uint64_t columns, uint32_t *memory, uint64_t memory_n, uint32_t *kinds, uint64_t kinds_n,
                    uint32_t *bits, uint64_t bits_n, uint64_t *out, uint64_t out_n);

/* Judges the scores of a Short element in a rectangle, given as for gvrs_cells, by the rule that the page says: 64 certain, 65 doubtful,
   66 unread. out[0] is the number of fill cells; out[1] is 1 where there is a lowest stored score, else 0; out[2] is that score's 16
   bits, as gvrs_cell gives a Short's, else 0; out[3] is the scale, 1000 or 10000: of 1000, scores are certain from 900 to 1000, of
   10000 from 9500 to 10000. The page says the second by a metadata record named score_rule with record ID 2, the first by one with ID
   1, or by none. A stored cell's number is its score, signed, also where it is the fill value; but -1 is unread, and a cell that has it
   counts as a fill and has no score. An unpacked cell counts as stored; a fill has no score, whatever its value is. Else the refusal's
   number, out[0] is its place, and out[1] to out[3] are 0.
   Refused, in this order: as by gvrs_check; 10 as by gvrs_cells; 12, at 0, where rows or columns is 0, the element is no Short, or
   metadata records named score_rule have any other ID, or both; 11 or 14 where a cell of the rectangle has it, of the first by rows.

   memory as for gvrs_cells: 524,288 numbers let every tile be unpacked once; fewer, or none, cost time and change no answer. */
uint32_t gvrs_deed(const uint8_t *file, uint64_t n, uint32_t compressor, uint64_t element, uint64_t row, uint64_t column,
                   uint64_t rows, uint64_t columns, uint32_t *memory, uint64_t memory_n, uint64_t *out, uint64_t out_n);

/* Compares two pages, each with the compressor index that gvrs_cell_with would be given for it: 0, and out[0] is the full number of
   differing cells; else the refusal's number, out[0] is its place, and out[1] whose it is: 1 the first page's, 2 the second's; 0 where the
   pages are unlike (12) and where nothing is refused. A cell is a row, a column and an element. Two cells differ in kind (stored or packed
   against fill) or in bits; what they are in each page gvrs_cell_with says. The files may be the same bytes.

   `list` takes the earliest entries that fit whole, list_n / 5 of them, each five numbers: row, column, element, index of the tile, number
   inside the tile; by row, then column, then element, each differing cell once. What stands behind them stays, and all of it on a
   refusal. A short list, or an empty one, is no refusal.

   Refused, in this order: as by gvrs_check, the first page; the second page; 12, at 0, where grid rows or columns, tile rows or columns,
   the number of elements or the type of one differ (names, fills and all else may); 11 or 14 where a cell has it in either page: at the
   first such cell by row, column and element, the first page's where both have it. Pages swapped, where neither is refused, give the same
   number and the same list.

   memory as for gvrs_deed: 1,048,576 numbers let every tile be unpacked as seldom as can be, three times at most; fewer, or none, cost time
   and change no answer. */
uint32_t gvrs_compare(const uint8_t *first, uint64_t first_n, uint32_t first_compressor,
                      const uint8_t *second, uint64_t second_n, uint32_t second_compressor,
                      uint32_t *memory, uint64_t memory_n, uint32_t *list, uint64_t list_n, uint64_t *out, uint64_t out_n);

/* The M32 codes of numbers, one behind the other: their length. `bytes` takes them where they fit, and what stands behind them stays;
   else it is as it was. A number is that of its 32 bits. */
uint64_t gvrs_m32_write(const uint32_t *numbers, uint64_t numbers_n, uint8_t *bytes, uint64_t bytes_n);

/* As many whole M32 codes from the start as stand there and as `numbers` has room for: how many, and out[0] is the bytes that they take.
   What stands behind them in `numbers` stays. */
uint64_t gvrs_m32_read(const uint8_t *bytes, uint64_t n, uint32_t *numbers, uint64_t numbers_n, uint64_t *out, uint64_t out_n);

/* The uncompressed content of an element in a tile: 32 present, out[0] where it starts and out[1] its length; 33 absent, 0 and 0;
   else the refusal's number, its place and 0. */
uint32_t gvrs_content(const uint8_t *file, uint64_t n, uint64_t tile, uint64_t element, uint64_t *out, uint64_t out_n);

/* Makes a front, the identification block and the header of a page, from a description: 0, and out[0] is its length; else the refusal's
   number, and out[0] is its place, 0.

   page: grid rows, grid columns, tile rows, tile columns, checksums (1 on, 0 off), the bytes of the product label, then the bytes of each
   compression method's name. uuid: 16 bytes. elements: 14 numbers each: type code (0 Integer, 1 integer-coded, 2 Float, 3 Short),
   continuous (0 no, else yes), the bytes of its name, label, description and unit; then minimum, maximum and fill (the other five are not
   read; of a Short the 16 lowest bits count) or, integer-coded, minimum, maximum, fill, scale and offset as bits of Floats, then minimum,
   maximum and fill as Integers. texts: all strings without lengths or terminators, in the order of the file: of each element name, label,
   description and unit; the methods' names; the product label. Times, references, levels, coordinates and reserved bytes are zero.

   Refused, in this order: 12 where page_n is less than 6, uuid_n is not 16, elements_n is no multiple of 14, a string has more than 65,535
   bytes, the lengths do not add up to texts_n, or the front would have more than 16,777,216 bytes; 3 and 4 as a check gives them of the
   front; 13 where front_n is less than its length. A type code or a flag above 255 is written as 255, which is 3.

   Made, the buffer holds the front, which gvrs_lay_down takes, and the bytes behind it are as they were. Refused, the whole buffer is as it
   was. */
uint32_t gvrs_front(const uint32_t *page, uint64_t page_n, const uint8_t *uuid, uint64_t uuid_n, const uint32_t *elements,
                    uint64_t elements_n, const uint8_t *texts, uint64_t texts_n, uint8_t *front, uint64_t front_n,
                    uint64_t *out, uint64_t out_n);

/* Lays a page down: 0 done, and out[0] is the file's length; else the refusal's number, and out[0] is its place, 0.

   front is an identification block and a header record, no byte more; time is the time modified; cells are the bytes of the
   tiles named in indexes, one tile after another, all elements of a tile in order, no lengths, no padding. Refused, in this
   order: 1 to 4 as a check does, of the front by itself, a longer one being 3; 12 where the time is zero, the indexes are not
   strictly ascending, one is not below the number of tiles, or cells_n is not indexes_n times the bytes of a tile; 4 where the
   file would be longer than 16,777,216 bytes; 13 where file_n is less than the file's length.

   Done, the buffer holds the file, and the bytes behind it are as they were. gvrs_check accepts that file; a grid cell of a tile
   named in indexes is stored in it with the bytes given, every other grid cell is fill. Refused, the whole buffer is as it was. */
uint32_t gvrs_lay_down(const uint8_t *front, uint64_t front_n, uint64_t time, const uint32_t *indexes, uint64_t indexes_n,
                       const uint8_t *cells, uint64_t cells_n, uint8_t *file, uint64_t file_n, uint64_t *out, uint64_t out_n);

/* A score sheet is bytes, each number with its highest byte first: four of the length of all that follows, a version byte 1, two each of
   rows and columns, at least 1, then two of each score by rows: -1 for unread, else 0 to 1000.

   Moves a sheet into a page: 0 done, and out[0] is the file's length; else the refusal's number, and out[0] is its place, 0. front and
   time are as for gvrs_lay_down. Refused, in this order: 1 to 4 of the front; 12 where the sheet is not as above, where the front has not
   the sheet's rows and columns for its grid, or where it has not one element only, a Short, with the fill value -1; 12 where the time is
   zero; 4 where the file would be longer than 16,777,216 bytes; 13 where file_n is less than the file's length.

   Done, the buffer holds the file that gvrs_lay_down would make of the tiles that have a score: a tile all -1 is not stored, and what a
   tile holds past the grid is -1. The bytes behind it are as they were. Refused, the whole buffer is as it was. */
uint32_t gvrs_sheet_in(const uint8_t *front, uint64_t front_n, uint64_t time, const uint8_t *sheet, uint64_t sheet_n,
                       uint8_t *file, uint64_t file_n, uint64_t *out, uint64_t out_n);

/* Moves a page out to a score sheet: 0 done, and out[0] is the sheet's length, 9 + 2 * rows * columns of the grid; else the refusal's
   number, and out[0] is its place. Refused, in this order: as by gvrs_check; 12, at 0, where the page has not one element only, a Short,
   where its fill value is not -1, where its metadata records named score_rule do not say the first rule, where a side of the grid is more
   than 65,535, or where the length would not fit its four bytes; then the first cell of the grid by rows that has 11 or 14 with that
   compressor index, or 12, at 0, where its number is neither -1 nor from 0 to 1000; then 13, at 0, where sheet_n is less than the sheet's
   length. Done, the bytes behind the sheet are as they were; refused, the whole buffer is as it was.

   A sheet that gvrs_sheet_in takes comes back byte for byte. A page that is moved out and in again, with its own front, has the same cells
   in the grid; but tiles whose cells there are all -1 are not stored, packed tiles are stored plain, and metadata is lost.

   memory as for gvrs_cells: 524,288 numbers let every tile be unpacked twice at most; fewer, or none, cost time and change no answer. */
uint32_t gvrs_sheet_out(const uint8_t *file, uint64_t n, uint32_t compressor, uint32_t *memory, uint64_t memory_n,
                        uint8_t *sheet, uint64_t sheet_n, uint64_t *out, uint64_t out_n);

/* A page is corrected where it lies: opened, its tiles stored or removed one by one, squeezed where that is wanted, closed. file is a
   buffer of file_n bytes, of which the first n are the page; each call is given the length that the last one answered.

   0 done, and out[0] is the page's new length, of a squeezing at most n, of any other call at least n; else the refusal's number, and
   out[0] is its place, 0 but for a refusal of the check. Done, the buffer holds the page, and the bytes behind it are as they were.
   Refused, the whole buffer is as it was. Refused, in this order: 12 where n is above file_n; an opening as by gvrs_check, the others by
   15 where the page is not open for writing; then as each of them says. A page is open for writing where its opened time is set and it is else as gvrs_check wants it,
   but without a file-space directory, with a tile directory that lists every tile of the grid, and with no two free records next to
   each other. gvrs_check answers 5 of it.

   What goes to the page's end is 13 where the buffer has no room for it, and 4 where only the ceiling of 16,777,216 bytes stands in the
   way. Free records next to each other become one. What is freed, joined, or left over of a free record that is taken holds zeros
   behind its length, but for its checksum.

   Over any calls that begin with an opening the tiles are those of a map from index to bytes. Metadata, and tiles that no call names,
   keep their bytes, compressed ones too, and where none squeezes their places. A page that is closed is accepted by gvrs_check. */

/* Opens a page: time is its opened time, 12 where that is 0. The file-space directory is freed. A tile directory that does not list every
   tile of the grid is replaced by one that does, at the page's end: 13 or 4. */
uint32_t gvrs_open_page(uint8_t *file, uint64_t file_n, uint64_t n, uint64_t time, uint64_t *out, uint64_t out_n);

/* Stores a whole tile, uncompressed: cells are its bytes, all elements in order, no lengths, no padding. 10 where the grid has no such
   tile; 12 where cells_n is not the bytes of a tile; 13 or 4. A tile that is stored uncompressed is overwritten, cells and checksum
   alone, and is never 13 or 4; one with a compressed element is freed first. A new record takes the start of the lowest free record of
   its length or of at least 16 bytes more, else the page's end. */
uint32_t gvrs_store_tile(uint8_t *file, uint64_t file_n, uint64_t n, uint64_t tile, const uint8_t *cells, uint64_t cells_n,
                         uint64_t *out, uint64_t out_n);

/* Removes a tile; its cells are fill then. 10 where the grid has no such tile. Where it is absent, nothing changes: done. */
uint32_t gvrs_remove_tile(uint8_t *file, uint64_t file_n, uint64_t n, uint64_t tile, uint64_t *out, uint64_t out_n);

/* Closes a page: time is its new time modified, 12 where that is 0, and the opened time is 0 again. Where a record is free, a file-space
   directory goes to the page's end: 13 or 4. */
uint32_t gvrs_close_page(uint8_t *file, uint64_t file_n, uint64_t n, uint64_t time, uint64_t *out, uint64_t out_n);

/* Replays a correction log on an open page: each entry is gvrs_store_tile or gvrs_remove_tile on what the last left, and the page and the
   whole log are judged once, before the first. A log is a number of four bytes, that of the bytes behind it, and a version byte 1; then come
   entries up to its last byte: a byte 1, an index of four bytes and the bytes of a tile, which stores it, or a byte 2 and an index, which
   removes it. Numbers have their highest byte first. The log is not changed, and does not overlap the buffer.

   0: out[0] is the page's length, out[1] the number of entries. 13 or 4 stops it at the first entry that gets that answer: out[0] is the
   page's length and out[1] the number of entries done before it, and against what is said above the page is as these left it, and open. Any
   other refusal comes before the first entry, and nothing has changed: out[0] is its place, out[1] is 0: 12 where n is past the buffer,
   15, then 12 where the log is not so, or where an index anywhere in it is past the tiles. Once it is replayed to the end, the tiles
   depend on the tiles before and on the last entry for each index alone. */
uint32_t gvrs_replay(uint8_t *file, uint64_t file_n, uint64_t n, const uint8_t *log, uint64_t log_n, uint64_t *out, uint64_t out_n);

/* Squeezes an open page: its records move down, so that less or nothing between them is free. A plan has a new start for each record
   behind the header that is not free, plan_n of them, in file order. It is right where each start is a multiple of 8 and not above the
   record's old one, none is before the end of the record before it, or of the header, and the gap between the two is 0 or at least 16
   bytes. The page then ends with its last record, every gap is one free record that holds zeros behind its length, but for its checksum,
   and references to what has moved follow: in the header, and in the tile directory and the metadata directory. Tile and metadata records
   keep their bytes and their order. 12 where the plan is not right, or has fewer or more starts than there are records.

   plan is working space for the call, and holds the same numbers when it returns, whatever it answers. */
uint32_t gvrs_squeeze(uint8_t *file, uint64_t file_n, uint64_t n, uint64_t *plan, uint64_t plan_n, uint64_t *out, uint64_t out_n);

/* What gvrs_squeeze would answer: 0, and out[0] is the length that the page would have, or the refusal's number and its place. */
uint32_t gvrs_check_plan(const uint8_t *file, uint64_t file_n, uint64_t n, const uint64_t *plan, uint64_t plan_n,
                         uint64_t *out, uint64_t out_n);

/* Makes the plan that slides every record against the one before it, which is right for every open page and leaves no free record: 0, and
   out[0] is the length that the page would have by it; else the refusal's number, and out[0] is its place: 12 where n is above file_n, 15,
   13 where plan_n is less than the number of starts. out[1] is that number, with 13 too, and 0 with 12 and 15. Done, plan begins with the
   starts, and what stands behind them stays; refused, it is as it was. No page has more than 1,048,576. */
uint32_t gvrs_tight_plan(const uint8_t *file, uint64_t file_n, uint64_t n, uint64_t *plan, uint64_t plan_n, uint64_t *out, uint64_t out_n);

/* The five calls, each stopped after a number of byte stores: what stands in the buffer where the power is cut. Each answers as the call
   does: 0, and out[0] is the length that the whole call reaches, or the refusal's number and its place. out[1] is the number of byte stores
   that it has made, at most `stores`, and 0 where it is refused. The buffer holds what the call's first stores make of it; one more changes
   one byte at most. Given enough of them it is the call.

   For one opening, any calls, and one closing that is not refused, on an accepted file: before the first store the page is the old one;
   after the last it is the new one; after any other number gvrs_check refuses it with 5, at every length from the header's end to the
   ceiling that the buffer has: above 16,777,216 bytes it is 4. */
uint32_t gvrs_open_page_stopped(uint8_t *file, uint64_t file_n, uint64_t n, uint64_t time, uint64_t stores, uint64_t *out, uint64_t out_n);
uint32_t gvrs_store_tile_stopped(uint8_t *file, uint64_t file_n, uint64_t n, uint64_t tile, const uint8_t *cells, uint64_t cells_n,
                                 uint64_t stores, uint64_t *out, uint64_t out_n);
uint32_t gvrs_remove_tile_stopped(uint8_t *file, uint64_t file_n, uint64_t n, uint64_t tile, uint64_t stores, uint64_t *out, uint64_t out_n);
uint32_t gvrs_close_page_stopped(uint8_t *file, uint64_t file_n, uint64_t n, uint64_t time, uint64_t stores, uint64_t *out, uint64_t out_n);
uint32_t gvrs_squeeze_stopped(uint8_t *file, uint64_t file_n, uint64_t n, uint64_t *plan, uint64_t plan_n, uint64_t stores,
                              uint64_t *out, uint64_t out_n);

/* The listing of a file, as text: its length. `text` takes it where it fits, and what stands behind it stays; else `text` is as it
   was. A file over 65,536 bytes lists as `too long`. */
uint64_t gvrs_list(const uint8_t *file, uint64_t n, uint8_t *text, uint64_t text_n);

/* 1 if the bytes are a name that an element or a metadata record may have, else 0: 1 to 32 letters, digits and underscores of
   ASCII, a letter first, no underscore last. */
uint32_t gvrs_is_identifier(const uint8_t *name, uint64_t n);

/* 1 if the bytes are UTF-8 by RFC 3629, as every label, description and unit has to be, else 0. */
uint32_t gvrs_is_utf8(const uint8_t *text, uint64_t n);

/* Whether two names are equal, byte for byte: 1 or 0. out[0] is the number of byte pairs read: 0 where the lengths differ, all
   where the names are equal, else up to and with the first pair that differs. */
uint32_t gvrs_compare_names(const uint8_t *a, uint64_t a_n, const uint8_t *b, uint64_t b_n, uint64_t *out, uint64_t out_n);

/* The element of a name: 32 and its number in out[0]; 33 and 0 where no element has it; else the refusal's number, and out[0] is
   its place. */
uint32_t gvrs_find_element(const uint8_t *file, uint64_t n, const uint8_t *name, uint64_t name_n, uint64_t *out, uint64_t out_n);

/* What a page says of itself, as lists of items. `from` is the first item wanted, counted from 0; `numbers` takes as many whole items as
   fit, one behind the other, and what stands behind them stays. 0, out[0] is how many items were taken and out[1] how many there are from
   that one on: 0 and 0 past the end. Else the refusal's number, by the check alone, out[0] is its place, out[1] is 0, and `numbers` is as it
   was. A text is given by its place, just behind its length field also where it is empty, and its length.

   The stored tiles, ascending, four numbers each: the tile's index, the start of its record, a mask with bit e set where element e is
   packed, and the compressor index of its first packed element that is no Float, 256 where there is none. */
uint32_t gvrs_tiles(const uint8_t *file, uint64_t n, uint64_t from, uint64_t *numbers, uint64_t numbers_n, uint64_t *out, uint64_t out_n);

/* The metadata records in file order, nine numbers each: the record's start, place and length of its name, its record ID, its data type,
   place and length of its content, place and length of its description. */
uint32_t gvrs_metadata(const uint8_t *file, uint64_t n, uint64_t from, uint64_t *numbers, uint64_t numbers_n, uint64_t *out, uint64_t out_n);

/* The names of the compression methods, by index, two numbers each: place and length. */
uint32_t gvrs_methods(const uint8_t *file, uint64_t n, uint64_t from, uint64_t *numbers, uint64_t numbers_n, uint64_t *out, uint64_t out_n);

/* The metadata record of a name and an ID: 32, and out[0] is its number for gvrs_metadata; 33 and 0 where there is none; else the
   refusal's number, and out[0] is its place. */
uint32_t gvrs_find_metadata(const uint8_t *file, uint64_t n, const uint8_t *name, uint64_t name_n, uint32_t id, uint64_t *out, uint64_t out_n);

#ifdef __cplusplus
}
#endif

#endif
