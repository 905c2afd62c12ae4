/* cli/show.c: what the commands show, in three forms: text, JSON and CSV. A row is fields in their order. As text each stands behind its
   words; as JSON a row is an object; as CSV it is a line, and facts are a line each. */
#include <math.h>
#include <stdio.h>
#include <string.h>
#include "cli.h"

static enum form form;
static enum lines lines;           /* how what stands in no list is shown as CSV */
static const struct field *field;  /* the next one */
static const struct field *outer;  /* in a row, the next one of what the list stands in */
static const struct field *listed; /* the fields of a row */
static const char *list_name;      /* NULL where the list stands in no object */
static uint64_t row;               /* its number in the list */
static int in_row, empty;          /* whether a row is open; whether nothing stands yet in what was opened last */

void show_as(enum form wanted) {
    form = wanted;
}

/* Nine digits tell a Float from every other; of a NaN the bits are given. JSON has no number for what is none, and -0 is a whole number
   there, which has no sign. */
static void print_float(uint32_t pattern) {
    float value;
    memcpy(&value, &pattern, sizeof value);
    const char *mark = form == JSON && !isfinite(value) ? "\"" : "";
    if (isnan(value))
        printf("%sNaN(%08" PRIx32 ")%s", mark, pattern, mark);
    else if (isinf(value))
        printf("%s%sinfinity%s", mark, value < 0 ? "-" : "", mark);
    else
        printf(form == JSON && value == 0 && signbit(value) ? "%.1f" : "%.9g", value);
}

void print_value(uint64_t type, uint32_t pattern) {
    int64_t half = type == SHORT ? 0x8000 : 0x80000000;
    if (type == FLOAT)
        print_float(pattern);
    else
        printf("%" PRId64, pattern < half ? (int64_t)pattern : (int64_t)pattern - 2 * half);
}

void print_marked(const char *word, uint64_t type, uint32_t pattern) {
    printf("%s(", word);
    print_value(type, pattern);
    printf(")");
}

void print_kind(uint32_t kind, uint64_t type, uint32_t pattern) {
    if (kind == GVRS_FILL)
        print_marked("fill", type, pattern);
    else if (kind < GVRS_STORED)
        printf("refused(%" PRIu32 ")", kind);
    else
        print_value(type, pattern);
}

/* A byte that the form has other signs for. */
static void print_digits(uint8_t byte, int character) {
    printf(form != JSON ? "\\x%02x" : character ? "\\u%04x" : "\\\\x%02x", byte);
}

/* Bytes, which are UTF-8 but for a file's name and a method's. Control characters, also those of two bytes, and bytes that are no
   character, are digits, and so are quotation marks and backslashes where the form has no other signs for them: a text can end no line
   and give the terminal no order. */
static void print_bytes(const uint8_t *text, uint64_t n) {
    int right = gvrs_is_utf8(text, n) == 1;
    for (uint64_t i = 0; i < n; i++) {
        int two_bytes = right && text[i] == 0xc2 && i + 1 < n && text[i + 1] < 0xa0;
        int mark = text[i] == '"' || text[i] == '\\';
        if (two_bytes && form != JSON)
            print_digits(text[i], 1);
        i += (uint64_t)two_bytes;
        if (text[i] == '"' && form == CSV)
            printf("\"\"");
        else if (mark && form == JSON)
            printf("\\%c", text[i]);
        else if (two_bytes || mark || text[i] < 0x20 || text[i] == 0x7f || (!right && text[i] > 0x7f))
            print_digits(text[i], right || text[i] < 0x80);
        else
            putchar(text[i]);
    }
}

void print_text(const uint8_t *text, uint64_t n) {
    printf("\"");
    print_bytes(text, n);
    printf("\"");
}

/* A field of CSV stands in quotation marks where it has a comma, a quotation mark or a blank at one of its ends. */
static void print_field(const uint8_t *text, uint64_t n) {
    int quoted = n > 0 && (memchr(text, ',', n) != NULL || memchr(text, '"', n) != NULL || text[0] == ' ' || text[n - 1] == ' ');
    if (quoted)
        print_text(text, n);
    else
        print_bytes(text, n);
}

static void print_names(const struct field *fields) {
    for (const struct field *f = fields; f->name != NULL; f++)
        printf(f == fields ? "%s" : ",%s", f->name);
    printf("\n");
}

/* Begins what stands in an object or in a list: a comma, unless it is the first, and what is behind that. */
static void begin_item(const char *behind) {
    printf("%s%s", empty ? "" : ",", behind);
    empty = 0;
}

void open_object(const struct field *fields, enum lines as_csv) {
    field = fields, lines = as_csv, empty = 1;
    if (form == JSON)
        printf("{");
    else if (form == CSV && lines == FACTS)
        printf("name,value\n");
    else if (form == CSV && lines == ONE_LINE)
        print_names(fields);
}

void close_object(const char *end) {
    printf("%s", form == TEXT ? end : form == JSON ? "}\n" : lines == ONE_LINE ? "\n" : "");
}

void open_list(const char *name, const struct field *fields) {
    listed = fields, list_name = name, row = 0;
    if (form == JSON && name != NULL) {
        begin_item("");
        printf("\"%s\":", name);
    }
    if (form == JSON)
        printf("[");
    else if (form == CSV && lines != FACTS)
        print_names(fields);
    empty = 1;
}

void close_list(void) {
    if (form == JSON)
        printf("%s]%s", empty ? "" : "\n", list_name == NULL ? "\n" : "");
    empty = 0;
}

void open_row(void) {
    outer = field, field = listed, in_row = 1;
    if (form == JSON) {
        begin_item("\n");
        printf("{");
    }
    empty = 1;
}

void close_row(const char *end) {
    field = outer, in_row = 0, empty = 0, row++;
    printf("%s", form == TEXT ? end : form == JSON ? "}" : lines == FACTS ? "" : "\n");
}

/* Begins a field: whether its value is to be printed. */
static int begin_field(int present) {
    const struct field *f = field++;
    if (form == TEXT && f->before != NULL)
        printf("%s", present ? f->before : f->instead != NULL ? f->instead : "");
    if (form == TEXT)
        return present && f->before != NULL;
    if (form == CSV && !in_row && lines == NO_LINE)
        return 0;
    if (form == CSV && lines == FACTS) {
        if (in_row)
            printf("%s.%" PRIu64 ".", list_name, row);
        printf("%s,", f->name);
        return present;
    }
    begin_item("");
    if (form == JSON)
        printf(present ? "\"%s\":" : "\"%s\":null", f->name);
    return present;
}

static void end_field(void) {
    if (form == CSV && lines == FACTS)
        printf("\n");
}

void put_absent(void) {
    begin_field(0);
    end_field();
}

void put_number(uint64_t number) {
    if (begin_field(1))
        printf("%" PRIu64, number);
    end_field();
}

void put_number_if(int present, uint64_t number) {
    if (present)
        put_number(number);
    else
        put_absent();
}

void put_flag(int flag, const char *yes, const char *no) {
    if (begin_field(1))
        printf("%s", form != TEXT ? flag ? "true" : "false" : flag ? yes : no);
    end_field();
}

void put_value(uint64_t type, uint64_t pattern) {
    if (begin_field(1))
        print_value(type, (uint32_t)pattern);
    end_field();
}

/* Of a bit for each number. */
void put_set(uint64_t bits) {
    const char *between = "";
    if (begin_field(bits != 0 || form == JSON)) {
        printf("%s", form == JSON ? "[" : "");
        for (int i = 0; i < 64; i++)
            if (bits >> i & 1) {
                printf("%s%d", between, i);
                between = form == JSON ? "," : " ";
            }
        printf("%s", form == JSON ? "]" : "");
    }
    end_field();
}

static void put_bytes(const uint8_t *text, uint64_t n, int present, void (*as_text)(const uint8_t *text, uint64_t n)) {
    if (begin_field(present || form != TEXT))
        (form == TEXT ? as_text : form == JSON ? print_text : print_field)(text, n);
    end_field();
}

void put_text(const uint8_t *text, uint64_t n) {
    put_bytes(text, n, n > 0, print_text);
}

void put_name(const uint8_t *name, uint64_t n) {
    put_bytes(name, n, 1, print_bytes);
}

void put_word(const char *word) {
    put_name((const uint8_t *)word, strlen(word));
}

/* What a cell is, as a word. */
static const char *kind_word(uint32_t kind) {
    switch (kind) {
    case GVRS_STORED: return "stored";
    case GVRS_UNPACKED: return "unpacked";
    case GVRS_FILL: return "fill";
    case GVRS_COMPRESSED: return "compressed";
    default: return "malformed";
    }
}

/* A fill has no value here, and neither has a cell that cannot be read. */
void put_cell(uint32_t kind, uint64_t type, uint32_t pattern) {
    int valued = kind == GVRS_STORED || kind == GVRS_UNPACKED;
    put_word(kind_word(kind));
    int shown = begin_field(valued || form == TEXT);
    if (shown && form == TEXT)
        print_kind(kind, type, pattern);
    else if (shown)
        print_value(type, pattern);
    end_field();
}
