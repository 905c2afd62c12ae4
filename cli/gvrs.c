/* cli/gvrs.c: the command `gvrs`: its commands, what each is given, and help. docs/CALLING.md shows it in use. */
#include <errno.h>
#include <stdio.h>
#include <string.h>
#include "cli.h"

/* The options that a command takes, each with the name and the most of the number behind it, 0 where that is a text; some have none. */
enum { COMPRESSOR = 1, TIME = 2, WAIT = 4, QUIET = 8, SECOND = 16, MOST = 32, PARTIAL = 64, SQUEEZE = 128, GRID = 256, TILE = 512,
       ELEMENTS = 1024, LABEL = 2048, METHODS = 4096, UUID = 8192, PLAIN = 16384, AS_JSON = 32768, AS_CSV = 65536, ALL = 131072,
       EACH = 262144 };
enum { NEEDED = GRID | TILE | ELEMENTS, DESCRIBED = NEEDED | LABEL | METHODS | UUID | PLAIN, FORMS = AS_JSON | AS_CSV };

/* Those that are named by --help alone, and not where wrong arguments are given. */
enum { FURTHER = FORMS | ALL | EACH };

struct option {
    int option;
    const char *name;
    const char *value;
    uint64_t most;
    const char *help;
};

static const struct option OPTIONS[] = {
    {COMPRESSOR, "--compressor", "N", 255,
     "--compressor N unpacks content of the compressor index N, 0 to 255, but no Float's; other is refused (11).\n"
     "N may be the name of a compression method of the page, which stands for its index there.\n"},
    {SECOND, "--second-compressor", "N", 255, "--second-compressor N is the compressor index of SECOND, or the name of its method, where that is another.\n"},
    {MOST, "--most", "N", UINT64_MAX, "--most N shows the earliest N cells that differ, at most; without it, all.\n"},
    {GRID, "--grid", "ROWSxCOLUMNS", 0, "--grid ROWSxCOLUMNS is the size of the grid, as 1000x800.\n"},
    {TILE, "--tile", "ROWSxCOLUMNS", 0, "--tile ROWSxCOLUMNS is the size of a tile.\n"},
    {ELEMENTS, "--element", "NAME:TYPE:FILL", 0,
     "--element NAME:TYPE:FILL is an element, with :UNIT behind it where it has a unit; one or more, in their order. TYPE\n"
     "is Integer, integer-coded, Float or Short. An integer-coded element has the scale 1 and the offset 0.\n"},
    {LABEL, "--label", "TEXT", 0, "--label TEXT is the product label.\n"},
    {METHODS, "--method", "NAME", 0, "--method NAME is a compression method, as GvrsHuffman; more of them have the indexes 0, 1 and so on.\n"},
    {UUID, "--uuid", "DIGITS", 0, "--uuid DIGITS is the page's UUID, in 32 hexadecimal digits, with or without - between them; without it, a random one.\n"},
    {PLAIN, "--no-checksums", NULL, 0, "--no-checksums turns checksums off.\n"},
    {TIME, "--time", "MS", UINT64_MAX,
     "--time MS is the time modified, in milliseconds since 1970; without it, the clock's.\n"},
    {WAIT, "--wait", "SECONDS", UINT32_MAX,
     "--wait SECONDS waits up to so long for other corrections of FILE to end; without it, the command fails at once.\n"},
    {PARTIAL, "--partial", NULL, 0, "--partial writes the entries done where LOG stops; without it, FILE stays as it is then.\n"},
    {SQUEEZE, "--squeeze", NULL, 0, "--squeeze then moves the records together, so that no free space is left, as `gvrs squeeze` does.\n"},
    {QUIET, "-q", NULL, 0, "-q prints no answer: the exit status says it. Refusals and failures are still said.\n"},
    {ALL, "--all", NULL, 0,
     "--all shows also the file's length and how much of it is free, the product label, the UUID, the time as a date, the\n"
     "names of the compression methods, and the range, label and description of each element, of an integer-coded one\n"
     "its scale and offset; so do --json and --csv.\n"},
    {EACH, "--each", NULL, 0,
     "--each checks several files, and shows a line for each; so do --json and --csv. The exit status is 0 where all are\n"
     "accepted.\n"},
    {AS_JSON, "--json", NULL, 0, "--json shows the answer as JSON. A fill has no value there: it is null beside its kind.\n"},
    {AS_CSV, "--csv", NULL, 0, "--csv shows it as CSV, below a line of names. A fill is an empty field beside its kind.\n"},
};
enum { OPTION_COUNT = sizeof OPTIONS / sizeof OPTIONS[0] };

struct command {
    const char *name;
    const char *arguments;
    const char *brief; /* the same where wrong arguments are given: those of one file or tile; NULL where that is all */
    int least, most;   /* arguments; any number where several files or tiles are given */
    int options;
    int (*run)(const struct request *request);
    const char *help;
};

static const struct command COMMANDS[] = {
    {"new", "FILE", NULL, 1, 1, DESCRIBED | TIME, run_new,
     "Makes a page, a new file FILE, with nothing stored: every cell is its element's fill.\n"
     "`gvrs new page.gvrs --grid 1000x1000 --tile 100x100 --element glyph:Integer:0 --element score:Short:-1`\n"},
    {"check", "FILE...", "FILE", 1, 1, EACH | FORMS, run_check,
     "Says that the file is accepted, or which refusal it gets.\n"},
    {"info", "FILE", NULL, 1, 1, ALL | FORMS, run_info,
     "Shows what the page is: the grid's sides, its tiles and how many are stored, metadata records, and\n"
     "the number, name, type, fill and unit of each element.\n"},
    {"tiles", "FILE", NULL, 1, 1, FORMS, run_tiles,
     "Shows the stored tiles, ascending: where each one's record starts, which elements are packed, by their\n"
     "numbers, and the compressor index of the first of them that is no Float: `tile 0: record at 472, packed\n"
     "0, compressor index 3`.\n"},
    {"metadata", "FILE", NULL, 1, 1, FORMS, run_metadata,
     "Shows the metadata records in file order: name, record ID, data type, the length of the content and\n"
     "where it starts, and the description: `metadata 0: scanner, ID 1, type 8, 0 bytes at 410`.\n"},
    {"cell", "FILE ROW COLUMN ELEMENT", NULL, 4, 4, COMPRESSOR | FORMS, run_cell,
     "Shows one cell: `stored 12 at 354`, with the place of its first byte in the file; `unpacked 12 from\n"
     "354`, with that of the compressed content; or `fill(7)` where its tile is not stored. Behind it stand\n"
     "its tile and its number inside the tile, by rows: `tile 2, number 1`.\n"},
    {"tile", "FILE INDEX ELEMENT", NULL, 3, 3, COMPRESSOR, run_tile,
     "Shows an element's cells in one tile, by rows. A fill is `fill(7)`. Where the tile reaches over the\n"
     "grid's edge, `outside(13)` is what it holds there, and `outside` where it is not stored.\n"},
    {"cells", "FILE ELEMENT ROW COLUMN ROWS COLUMNS", NULL, 6, 6, COMPRESSOR | FORMS, run_cells,
     "Shows an element's cells in a rectangle, by rows: ROWS rows from ROW on, COLUMNS columns from COLUMN\n"
     "on. A fill is `fill(7)`, a cell that cannot be read `refused(11)` or `refused(14)`.\n"},
    {"deed", "FILE ELEMENT ROW COLUMN ROWS COLUMNS", NULL, 6, 6, COMPRESSOR | QUIET | FORMS, run_deed,
     "Judges the scores of a Short element in a rectangle: certain where each is from 900 to 1000, unread\n"
     "where a cell is fill, or -1, which counts as one, else doubtful; with the number of fills, the lowest\n"
     "score and the scale. A page with a metadata record named score_rule, ID 2, has the scale 10000: 9500 to\n"
     "10000 is certain there.\n"
     "Exit status: 0 certain, 3 doubtful, 4 unread, 1 refused, 2 failed.\n"},
    {"compare", "FIRST SECOND", NULL, 2, 2, COMPRESSOR | SECOND | MOST | FORMS, run_compare,
     "Compares two pages with equal grid, tile sides and element types; others are refused (12). Shows each cell\n"
     "that differs, stored against fill or in bits: row, column and element, what it is in FIRST and in SECOND,\n"
     "and its tile and number inside it, `0 2 score 5 fill(5), tile 1, number 0`; by row, then column, then\n"
     "element. Then always how many differ.\n"
     "Exit status: 0 none differs, 5 some do, 1 refused, 2 failed.\n"},
    {"export", "FILE INDEX", NULL, 2, 2, COMPRESSOR, run_export,
     "Shows a tile as text: a line of names, `row,column,` and the elements, then a line for each cell of the\n"
     "tile, by rows. A tile that is not stored has no values.\n"},
    {"import", "FILE INDEX TEXT", NULL, 3, 3, TIME | WAIT | SQUEEZE, run_import,
     "Stores a tile from text, a file as `gvrs export` shows one, with a value for each element of each cell. The\n"
     "page is written to a copy beside FILE, which then takes its name; where anything fails FILE stays as it is.\n"},
    {"store", "FILE {INDEX CELLS | INDEX=CELLS...}", "FILE INDEX CELLS", 3, 3, TIME | WAIT | SQUEEZE, run_store,
     "Stores a tile: CELLS is a file with its bytes, all elements in order, little-endian, by rows. Several tiles,\n"
     "as `gvrs store page.gvrs 3=a.bin 7=b.bin`, are all stored or none. The page is written once, to a copy\n"
     "beside FILE, which then takes its name; where anything fails FILE stays as it is.\n"},
    {"remove", "FILE INDEX", NULL, 2, 2, TIME | WAIT | SQUEEZE, run_remove,
     "Removes a tile, so that its cells are fills. The page is written to a copy beside FILE, which then\n"
     "takes its name; where anything fails FILE stays as it is.\n"},
    {"replay", "FILE LOG", NULL, 2, 2, TIME | WAIT | PARTIAL | SQUEEZE, run_replay,
     "Replays a correction log: LOG is a file with stores and removals of tiles, which are done in their order.\n"
     "It stops at the first tile that the page cannot grow for, and says how many entries are done and how\n"
     "many are left. The page is written to a copy beside FILE, which then takes its name; where anything\n"
     "fails FILE stays as it is.\n"},
    {"squeeze", "FILE", NULL, 1, 1, TIME | WAIT, run_squeeze,
     "Moves the records of a page together, so that no free space is left, and says how long the file then\n"
     "is. What is stored stays. The page is written to a copy beside FILE, which then takes its name; where\n"
     "anything fails FILE stays as it is.\n"},
    {"sheet-in", "[FRONT] SHEET FILE", NULL, 2, 3, TIME, run_sheet_in,
     "Moves a score sheet into a page, a new file FILE. FRONT is a front, or a page of which the front is\n"
     "taken: with the sheet's rows and columns, and one element only, a Short with the fill -1. Without FRONT the\n"
     "page has such an element named score, and tiles of at most 256 by 256 cells.\n"},
    {"sheet-out", "FILE SHEET", NULL, 2, 2, COMPRESSOR, run_sheet_out,
     "Moves a page out to a score sheet, a new file SHEET: one element only, a Short with the fill -1, each\n"
     "number -1 or from 0 to 1000, and no metadata record that says another rule than the first.\n"},
};
enum { COUNT = sizeof COMMANDS / sizeof COMMANDS[0] };

static const char NUMBERS[] = "Rows, columns, elements and tiles count from 0.\n";
static const char ELEMENT[] = "ELEMENT is an element's number or its name.\n";
static const char INPUT[] = "A file that is read may be -, which is standard input.\n";
static const char WHY[] = "With --why any command says below a refusal of a page which rule it breaks, what breaks it and where.\n";

static void print_usage(FILE *stream, const struct command *command, int brief) {
    int options = brief ? command->options & ~FURTHER : command->options;
    fprintf(stream, "gvrs %s %s", command->name, brief && command->brief != NULL ? command->brief : command->arguments);
    for (int i = 0; i < OPTION_COUNT; i++) {
        const char *value = OPTIONS[i].value;
        if (options & OPTIONS[i].option)
            fprintf(stream, OPTIONS[i].option & NEEDED ? " %s%s%s" : " [%s%s%s]", OPTIONS[i].name, value == NULL ? "" : " ",
                    value == NULL ? "" : value);
    }
    fprintf(stream, "\n");
}

static int print_help(void) {
    printf("Makes, checks, shows and corrects pages: GVRS files, version 1.4, of at most %d bytes.\nMoves score sheets into pages and out.\n\n", LONGEST);
    for (int i = 0; i < COUNT; i++) {
        printf("    ");
        print_usage(stdout, &COMMANDS[i], 0);
    }
    printf("\n%s%s%s%s`gvrs COMMAND --help` says more of a command, `gvrs --version` which version this is.\n"
           "Exit status: 0 done, 1 refused, 2 failed; of a deed 0 certain, 3 doubtful, 4 unread;\n"
           "of a comparison 0 no cell differs, 5 some do.\n", NUMBERS, ELEMENT, INPUT, WHY);
    return DONE;
}

static int print_command_help(const struct command *command) {
    printf("usage: ");
    print_usage(stdout, command, 0);
    printf("\n%s", command->help);
    int numbers = strstr(command->arguments, "ROW") != NULL || strstr(command->arguments, "INDEX") != NULL;
    printf("%s%s", numbers ? NUMBERS : "", strstr(command->arguments, "ELEMENT") ? ELEMENT : "");
    for (int i = 0; i < OPTION_COUNT; i++)
        if (command->options & OPTIONS[i].option)
            printf("%s", OPTIONS[i].help);
    return DONE;
}

/* Whether an argument is the option: then its value is the rest of the argument, behind a =, or the next one, NULL if there is none. */
static int is_option(const struct option *option, char ***at, char **value) {
    size_t n = strlen(option->name);
    if (option->value == NULL)
        return strcmp(**at, option->name) == 0;
    if (strncmp(**at, option->name, n) != 0 || ((**at)[n] != '\0' && (**at)[n] != '='))
        return 0;
    *value = (**at)[n] == '=' ? **at + n + 1 : *++*at;
    return 1;
}

static void set_option(struct request *request, int option, uint64_t number) {
    switch (option) {
    case COMPRESSOR: request->compressor = (uint32_t)number, request->method = NULL; break;
    case SECOND: request->second = (uint32_t)number, request->has_second = 1, request->other = NULL; break;
    case MOST: request->most = number; break;
    case TIME: request->time = number, request->has_time = 1; break;
    case WAIT: request->wait = number; break;
    case QUIET: request->quiet = 1; break;
    case ALL: request->all = 1; break;
    case EACH: request->each = 1; break;
    case PARTIAL: request->partial = 1; break;
    case SQUEEZE: request->squeeze = 1; break;
    case PLAIN: request->no_checksums = 1; break;
    case AS_JSON: request->form = JSON; break;
    case AS_CSV: request->form = CSV; break;
    }
}

static int set_text(struct request *request, int option, char *text) {
    switch (option) {
    case GRID: request->grid = text; break;
    case TILE: request->tile = text; break;
    case LABEL: request->label = text; break;
    case UUID: request->uuid = text; break;
    case ELEMENTS:
        if (request->element_count == MOST_GIVEN)
            return failed("a page has at most 16 elements");
        request->elements[request->element_count++] = text;
        break;
    case METHODS:
        if (request->method_count == MOST_GIVEN)
            return failed("more than %d compression methods are not taken here", MOST_GIVEN);
        request->methods[request->method_count++] = text;
        break;
    }
    return DONE;
}

/* A compressor index may be given by the name of a method, which is an identifier and begins with a letter (G Table 7). */
static int set_method(struct request *request, int option, const char *value) {
    int letter = (*value >= 'a' && *value <= 'z') || (*value >= 'A' && *value <= 'Z');
    if (!letter || (option != COMPRESSOR && option != SECOND))
        return 0;
    if (option == COMPRESSOR)
        request->method = value;
    else
        request->other = value;
    return 1;
}

/* The indexes of methods that are given by their names; of a comparison each page has its own. */
static int methods_given(const struct command *command, struct request *request) {
    int status = DONE;
    const char *other = request->other != NULL ? request->other : request->has_second ? NULL : request->method;
    if (request->method != NULL)
        status = read_page(request->words[0]) == DONE ? method_given("--compressor", request->method, &page, &request->compressor) : FAILED;
    if (status == DONE && command->options & SECOND && other != NULL) {
        const char *option = request->other != NULL ? "--second-compressor" : "--compressor";
        status = read_second_page(request->words[1]) == DONE ? method_given(option, other, &second_page, &request->second) : FAILED;
        request->has_second = 1;
    }
    return status;
}

static int read_option(const struct command *command, char ***at, struct request *request) {
    const char *given = **at;
    char *value = NULL;
    for (const struct option *option = OPTIONS; option < OPTIONS + OPTION_COUNT; option++)
        if (command->options & option->option && is_option(option, at, &value)) {
            uint64_t number = 0;
            if (option->value != NULL && value == NULL)
                return failed("%s wants a %s behind it", option->name, option->most == 0 ? "text" : "number");
            if (option->value != NULL && option->most == 0)
                return set_text(request, option->option, value);
            if (option->value != NULL && set_method(request, option->option, value))
                return DONE;
            if (option->value != NULL && number_given(option->name, value, option->most, &number) != DONE)
                return FAILED;
            set_option(request, option->option, number);
            return DONE;
        }
    return failed("%s is no option of gvrs %s; `gvrs %s --help` says what is", given, command->name, command->name);
}

/* Whether several files are to be checked, or several tiles to be stored. */
static int several_given(const struct command *command, const struct request *request) {
    if (command->run == run_check)
        return request->count > 0 && (request->each || request->form != TEXT);
    return command->run == run_store && request->count > 1 && strchr(request->words[1], '=') != NULL;
}

/* Whether so many arguments are what the command wants; else that is said. */
static int right_count(const struct command *command, const struct request *request) {
    int count = request->count;
    if ((count >= command->least && count <= command->most) || several_given(command, request))
        return 1;
    fprintf(stderr, "gvrs: %d arguments given, %d needed: ", count, command->most);
    print_usage(stderr, command, 1);
    return 0;
}

/* What is no option goes to the beginning of the words. */
static int run_command(const struct command *command, char **at) {
    struct request request = {.words = at, .compressor = NO_COMPRESSOR, .most = UINT64_MAX};
    int options = 1;
    for (; *at != NULL; at++) {
        if (options && (strcmp(*at, "--help") == 0 || strcmp(*at, "-h") == 0))
            return print_command_help(command);
        if (options && strcmp(*at, "--") == 0)
            options = 0;
        else if (options && strcmp(*at, "--why") == 0)
            why_wanted = 1;
        else if (options && (strncmp(*at, "--", 2) == 0 || strcmp(*at, "-q") == 0)) {
            if (read_option(command, &at, &request) != DONE)
                return FAILED;
        } else
            request.words[request.count++] = *at;
    }
    if (!right_count(command, &request))
        return FAILED;
    show_as(request.form);
    int status = methods_given(command, &request);
    return status == DONE ? command->run(&request) : status;
}

static int print_version(void) {
    printf("gvrs %s\n", gvrs_version());
    return DONE;
}

static int run(char **words) {
    if (words[0] == NULL)
        return failed("a command is needed; `gvrs --help` lists them");
    if (strcmp(words[0], "--help") == 0 || strcmp(words[0], "-h") == 0)
        return print_help();
    if (strcmp(words[0], "--version") == 0)
        return print_version();
    for (int i = 0; i < COUNT; i++)
        if (strcmp(words[0], COMMANDS[i].name) == 0)
            return run_command(&COMMANDS[i], words + 1);
    return failed("'%s' is no command; `gvrs --help` lists them", words[0]);
}

int main(int argc, char **argv) {
    int status = run(argv + (argc > 0));
    if (fflush(stdout) == 0 && !ferror(stdout))
        return status;
    return failed("standard output: %s", strerror(errno));
}
