/* cli/given.c: what the command `gvrs` is given: numbers, files and elements; what it says where one is wrong, and how far it is. */
#define _XOPEN_SOURCE 700
#include <errno.h>
#include <fcntl.h>
#include <stdarg.h>
#include <stdio.h>
#include <stdlib.h>
#include <string.h>
#include <time.h>
#include <unistd.h>
#include "cli.h"

struct page page, second_page;
const char *const TYPES[4] = {"Integer", "integer-coded", "Float", "Short"};

static double seconds(void) {
    struct timespec now = {0, 0};
    clock_gettime(CLOCK_MONOTONIC, &now);
    return (double)now.tv_sec + (double)now.tv_nsec / 1e9;
}

/* Whether a line on standard error says how much is done. */
static int shown;

static void clear_progress(void) {
    if (shown)
        fprintf(stderr, "\r     \r");
    shown = 0;
}

void progress(uint64_t done, uint64_t all) {
    static int asked, wanted;
    static double next;
    if (!asked)
        asked = 1, next = seconds() + 1, wanted = isatty(STDERR_FILENO) && !isatty(STDOUT_FILENO);
    if (wanted && done == all)
        clear_progress();
    if (!wanted || done == all || seconds() < next)
        return;
    fprintf(stderr, "\r%3.0f %%", 100 * ((double)done / (double)all));
    next = seconds() + 0.2, shown = 1;
}

int failed(const char *format, ...) {
    va_list arguments;
    va_start(arguments, format);
    fflush(stdout);
    clear_progress();
    fputs("gvrs: ", stderr);
    vfprintf(stderr, format, arguments);
    fputs("\n", stderr);
    va_end(arguments);
    return FAILED;
}

int refused_in_words(uint32_t number, uint64_t place, const char *words, const char *note) {
    failed("%s: refused %" PRIu32 " at %" PRIu64 ": %s%s%s", page.name, number, place, words, note == NULL ? "" : ": ",
           note == NULL ? "" : note);
    explain(&page, number, place);
    return REFUSED;
}

int refused_page(const struct page *of, uint32_t number, uint64_t place) {
    failed("%s: refused %" PRIu32 " at %" PRIu64 ": %s", of->name, number, place, gvrs_refusal(number));
    explain(of, number, place);
    return REFUSED;
}

int refused(uint32_t number, uint64_t place, const char *note) {
    uint64_t is[13];
    char sides[150];
    if (note == NULL && number == GVRS_OUTSIDE && gvrs_page(page.bytes, page.n, is, 13) == GVRS_ACCEPTED) {
        snprintf(sides, sizeof sides, "there are rows 0 to %" PRIu64 ", columns 0 to %" PRIu64 ", tiles 0 to %" PRIu64
                 " and elements 0 to %" PRIu64, is[0] - 1, is[1] - 1, is[4] * is[5] - 1, is[6] - 1);
        note = sides;
    }
    return refused_in_words(number, place, gvrs_refusal(number), note);
}

int read_number(const char *text, uint64_t most, uint64_t *number) {
    uint64_t value = 0;
    const char *at = text;
    for (; '0' <= *at && *at <= '9'; at++) {
        uint64_t digit = (uint64_t)(*at - '0');
        if (value > (most - digit) / 10)
            return 0;
        value = 10 * value + digit;
    }
    *number = value;
    return at != text && *at == '\0';
}

int number_given(const char *what, const char *text, uint64_t most, uint64_t *number) {
    if (read_number(text, most, number))
        return DONE;
    return failed("%s is '%s', and has to be a number from 0 to %" PRIu64 " in digits alone", what, text, most);
}

int read_stream(int stream, const char *name, uint8_t *bytes, uint64_t room, uint64_t *n) {
    *n = 0;
    while (*n < room) {
        ssize_t got = read(stream, bytes + *n, room - *n);
        if (got == 0)
            break;
        if (got > 0)
            *n += (uint64_t)got;
        else if (errno != EINTR)
            return failed("%s: %s", name, strerror(errno));
    }
    return DONE;
}

/* Opens a file, or takes standard input, once: -1 where that fails, which is said. */
static int open_file(const char *name) {
    static int taken;
    int standard = strcmp(name, "-") == 0;
    int stream = standard ? STDIN_FILENO : open(name, O_RDONLY | O_CLOEXEC);
    if (standard && taken++) {
        failed("-: standard input can be read once, and is given twice; a file of that name is ./-");
        return -1;
    }
    if (stream < 0)
        failed("%s: %s", name, strerror(errno));
    return stream;
}

int read_file(const char *name, uint8_t *bytes, uint64_t room, uint64_t *n) {
    int stream = open_file(name);
    if (stream < 0)
        return FAILED;
    int status = read_stream(stream, name, bytes, room, n);
    close(stream);
    return status;
}

/* A page that was read already, for the name of a method, is not read again. */
static int read_whole(const char *name, struct page *whole) {
    if (whole->name == name)
        return DONE;
    int status = read_file(name, whole->bytes, sizeof whole->bytes, &whole->n);
    whole->name = name;
    return status;
}

int read_page(const char *name) {
    return read_whole(name, &page);
}

int read_second_page(const char *name) {
    return read_whole(name, &second_page);
}

/* Reads on in longer and longer memory. */
static uint8_t *read_growing(int stream, const char *name, uint64_t most, uint64_t *n) {
    uint64_t room = 1 << 20, got;
    uint8_t *bytes = NULL;
    for (*n = 0;; room *= 8) {
        uint8_t *more = realloc(bytes, room);
        if (more == NULL) {
            failed("%s: %s", name, strerror(errno));
            break;
        }
        bytes = more;
        if (read_stream(stream, name, bytes + *n, room - *n, &got) != DONE)
            break;
        *n += got;
        if (*n < room || room > most)
            return bytes;
    }
    free(bytes);
    return NULL;
}

uint8_t *read_long(const char *name, uint64_t most, uint64_t *n) {
    int stream = open_file(name);
    uint8_t *bytes = stream < 0 ? NULL : read_growing(stream, name, most, n);
    if (stream >= 0)
        close(stream);
    return bytes;
}

/* A name begins with a letter, so that none is a number too. */
int element_given(const char *text, uint64_t *element) {
    const uint8_t *name = (const uint8_t *)text;
    uint64_t name_n = strlen(text), out;
    if (read_number(text, UINT64_MAX, element))
        return DONE;
    if (!gvrs_is_identifier(name, name_n))
        return failed("ELEMENT is '%s', and has to be an element's number, counted from 0, or its name", text);
    uint32_t number = gvrs_find_element(page.bytes, page.n, name, name_n, &out, 1);
    *element = out;
    if (number == GVRS_STORED)
        return DONE;
    return number == GVRS_FILL ? refused(GVRS_OUTSIDE, 0, "no element has that name") : refused(number, out, NULL);
}
