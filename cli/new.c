/* cli/new.c: fronts from what the command `gvrs` is given, and new pages with nothing stored: new. What is made is a new file: no other is
   replaced. */
#define _DEFAULT_SOURCE
#define _XOPEN_SOURCE 700
#include <errno.h>
#include <math.h>
#include <stdio.h>
#include <stdlib.h>
#include <string.h>
#include <time.h>
#include <unistd.h>
#include "cli.h"

/* What gvrs_front takes: numbers of an element, bytes of a UUID, the most that a tile's side is where none is given. */
enum { NUMBERS = 14, UUID = 16, TILE_SIDE = 256 };

uint64_t clock_now(void) {
    struct timespec now = {0, 0};
    clock_gettime(CLOCK_REALTIME, &now);
    return (uint64_t)now.tv_sec * 1000 + (uint64_t)now.tv_nsec / 1000000;
}

/* ROWSxCOLUMNS. */
static int sides_given(const char *option, const char *text, uint32_t *sides) {
    char *end;
    if (text == NULL)
        return failed("%s ROWSxCOLUMNS is needed", option);
    for (int i = 0; i < 2; i++) {
        errno = 0;
        unsigned long long side = strtoull(text, &end, 10);
        if (*text < '0' || *text > '9' || errno != 0 || side > UINT32_MAX || *end != (i == 0 ? 'x' : '\0'))
            return failed("%s wants two numbers with an x between them, as 1000x800", option);
        sides[i] = (uint32_t)side;
        text = end + 1;
    }
    return DONE;
}

/* A random UUID, of version 4, unless one is given, in 32 hexadecimal digits, as `info` shows it or without what stands between them. */
static int uuid_given(const char *text, uint8_t *uuid) {
    if (text == NULL) {
        if (getentropy(uuid, UUID) != 0)
            return failed("no random bytes for a UUID: %s", strerror(errno));
        uuid[6] = (uuid[6] & 0x0f) | 0x40;
        uuid[8] = (uuid[8] & 0x3f) | 0x80;
        return DONE;
    }
    char digits[2 * UUID + 1] = "";
    size_t n = 0;
    for (; *text != '\0'; text++)
        if (*text != '-' && n++ < 2 * UUID)
            digits[n - 1] = *text;
    if (n != 2 * UUID || strspn(digits, "0123456789abcdefABCDEF") != 2 * UUID)
        return failed("--uuid wants 32 hexadecimal digits");
    for (int i = 0; i < UUID; i++) {
        char pair[3] = {digits[2 * i], digits[2 * i + 1], '\0'};
        uuid[i] = (uint8_t)strtoul(pair, NULL, 16);
    }
    return DONE;
}

static uint32_t float_bits(double number) {
    float value = (float)number;
    uint32_t bits;
    memcpy(&bits, &value, sizeof bits);
    return bits;
}

/* The numbers of a range and fill block: the least, the greatest and the fill; integer-coded as Floats, with the scale 1 and the offset 0,
   then as Integers. */
static void set_range(uint32_t *block, int type, double least, double greatest, double fill) {
    double numbers[] = {least, greatest, fill, 1, 0};
    int floats = type == FLOAT ? 3 : type == INTEGER_CODED ? 5 : 0;
    for (int i = 0; i < floats; i++)
        block[i] = float_bits(numbers[i]);
    for (int i = 0; type != FLOAT && i < 3; i++)
        block[floats + i] = (uint32_t)(int64_t)numbers[i];
}

/* NAME:TYPE:FILL, or NAME:TYPE:FILL:UNIT. The name and the unit go behind the texts. */
static int element_told(char *text, uint32_t *numbers, char *texts) {
    char *type = strchr(text, ':'), *fill = type == NULL ? NULL : strchr(type + 1, ':'), *unit = fill == NULL ? NULL : strchr(fill + 1, ':');
    if (fill == NULL)
        return failed("--element wants NAME:TYPE:FILL or NAME:TYPE:FILL:UNIT, and not '%s'", text);
    size_t name_n = (size_t)(type - text), type_n = (size_t)(fill - type - 1), unit_n = unit == NULL ? 0 : strlen(unit + 1);
    int code = 0;
    while (code < 4 && (strlen(TYPES[code]) != type_n || strncmp(type + 1, TYPES[code], type_n) != 0))
        code++;
    if (code == 4)
        return failed("'%.*s' is no type: Integer, integer-coded, Float, Short", (int)type_n, type + 1);
    char *end, number[64];
    int fill_n = unit == NULL ? (int)strlen(fill + 1) : (int)(unit - fill - 1);
    snprintf(number, sizeof number, "%.*s", fill_n, fill + 1);
    double most = code == SHORT ? 32767 : 2147483647, value = strtod(number, &end);
    if (fill_n >= (int)sizeof number || end == number || *end != '\0' || (code != FLOAT && (!(value >= -most - 1 && value <= most) || value != (double)(int64_t)value)))
        return failed("'%s' is no fill of the type %s", number, TYPES[code]);
    numbers[0] = (uint32_t)code;
    numbers[2] = (uint32_t)name_n;
    numbers[5] = (uint32_t)unit_n;
    set_range(numbers + 6, code, code == FLOAT ? -INFINITY : -most - 1, code == FLOAT ? INFINITY : most, value);
    strncat(texts, text, name_n);
    if (unit != NULL)
        strcat(texts, unit + 1);
    return DONE;
}

/* What gvrs_front is told. */
struct told {
    const uint32_t *sides;
    uint64_t sides_n;
    const uint32_t *elements;
    uint64_t count;
    const char *texts;
    uint64_t texts_n;
};

/* A front by its description: the number that the call gives. */
static uint32_t front_of(const struct told *t, const uint8_t *uuid, uint8_t *front, uint64_t room, uint64_t *n) {
    return gvrs_front(t->sides, t->sides_n, uuid, UUID, t->elements, t->count * NUMBERS, (const uint8_t *)t->texts, t->texts_n, front, room, n, 1);
}

/* Whether a part of a description, beside what is right, gets that refusal too. */
static int gets(uint32_t number, const struct told *part) {
    static const uint8_t NONE[UUID];
    static uint8_t front[LONGEST];
    uint64_t n;
    return front_of(part, NONE, front, sizeof front, &n) == number;
}

static const uint32_t LEAST[6] = {1, 1, 1, 1, 1, 0}, RIGHT[NUMBERS] = {SHORT, 0, 1};

/* The side that breaks a rule by itself: which rule; what it is goes into the note. 0 where none does. */
static uint32_t wrong_side(uint32_t number, const uint32_t *sides, char *note, size_t room) {
    static const char *const SIDES[] = {"grid rows", "grid columns", "tile rows", "tile columns"};
    for (int i = 0; i < 4; i++) {
        uint32_t one[6];
        memcpy(one, LEAST, sizeof one);
        one[i] = sides[i];
        if (gets(number, &(struct told){one, 6, RIGHT, 1, "z", 1})) {
            snprintf(note, room, "%s: ", SIDES[i]);
            return number == GVRS_CEILING ? 28 : sides[i] == 0 ? 9 : 10;
        }
    }
    return 0;
}

/* The same of an element, by its name or its unit, and of two with the same name. The texts of an element are its name and its unit. */
static uint32_t wrong_element(uint32_t number, const struct told *t, char *note, size_t room) {
    const char *texts = t->texts;
    for (uint64_t e = 0; e < t->count; e++) {
        const uint32_t *element = t->elements + e * NUMBERS;
        uint32_t unnamed[NUMBERS];
        memcpy(unnamed, element, sizeof unnamed);
        unnamed[5] = 0;
        snprintf(note, room, "element %" PRIu64 ": ", e);
        if (gets(number, &(struct told){LEAST, 6, unnamed, 1, texts, element[2]}))
            return 18;
        if (gets(number, &(struct told){LEAST, 6, element, 1, texts, element[2] + (uint64_t)element[5]}))
            return 22;
        texts += element[2] + (size_t)element[5];
    }
    snprintf(note, room, "%s", "");
    return gets(number, &(struct told){LEAST, 6, t->elements, t->count, t->texts, (uint64_t)(texts - t->texts)}) ? 19 : 0;
}

/* The bytes of the methods' names. */
static uint64_t methods_n(const struct told *t) {
    uint64_t n = 0;
    for (uint64_t i = 6; i < t->sides_n; i++)
        n += t->sides[i];
    return n;
}

/* The rule that a description breaks, found by asking for its parts; 0 where none of them is refused so. */
static uint32_t broken_rule(uint32_t number, const struct told *t, char *note, size_t room) {
    uint32_t rule = wrong_side(number, t->sides, note, room), tile[6] = {1, 1, t->sides[2], t->sides[3], 1, 0};
    if (rule != 0)
        return rule;
    if (number == GVRS_CEILING && t->count > 16)
        return 30;
    if (number == GVRS_CEILING)
        return gets(number, &(struct told){tile, 6, t->elements, t->count, t->texts, t->texts_n - t->sides[5] - methods_n(t)}) ? 31 : 29;
    if (t->count == 0)
        return 14;
    rule = wrong_element(number, t, note, room);
    return rule != 0 ? rule : t->sides[5] > 0 ? 26 : 0;
}

/* The refusal of a front in words that name what was given; where it is wanted, with the rule that this breaks. */
static int refused_front(uint32_t number, uint64_t place, const struct told *t) {
    char note[200] = "";
    if (!why_wanted)
        return refused(number, place, number == GVRS_HEADER  ? "a side, a name, a unit or the label is at fault, two names are equal, or no element is given"
                                    : number == GVRS_CEILING ? "of the sides, the tiles, the bytes of a tile, or the elements"
                                                             : NULL);
    uint32_t rule = number == GVRS_HEADER || number == GVRS_CEILING ? broken_rule(number, t, note, sizeof note) : 0;
    size_t n = strlen(note);
    snprintf(note + n, sizeof note - n, "%s", gvrs_rule(rule));
    return refused(number, place, rule == 0 ? NULL : note);
}

int score_front(uint64_t rows, uint64_t columns, uint8_t *front, uint64_t room, uint64_t *n) {
    uint64_t height = rows < TILE_SIDE ? rows : TILE_SIDE, width = columns < TILE_SIDE ? columns : TILE_SIDE;
    uint32_t sides[] = {(uint32_t)rows, (uint32_t)columns, (uint32_t)height, (uint32_t)width, 1, 0}, element[NUMBERS] = {SHORT, 0, 5};
    uint8_t uuid[UUID];
    if (uuid_given(NULL, uuid) != DONE)
        return FAILED;
    set_range(element + 6, SHORT, -1, 1000, -1);
    struct told told = {sides, 6, element, 1, "score", 5};
    uint32_t number = front_of(&told, uuid, front, room, n);
    return number == GVRS_ACCEPTED ? DONE : refused_front(number, *n, &told);
}

static int make_page(const struct request *request, const struct told *told, const uint8_t *uuid) {
    static uint8_t file[LONGEST];
    uint64_t n, time = request->has_time ? request->time : clock_now();
    uint32_t number = front_of(told, uuid, page.bytes, sizeof page.bytes, &page.n);
    if (number != GVRS_ACCEPTED)
        return refused_front(number, page.n, told);
    number = gvrs_lay_down(page.bytes, page.n, time, NULL, 0, NULL, 0, file, sizeof file, &n, 1);
    if (number != GVRS_ACCEPTED)
        return refused(number, n, number == GVRS_INPUT ? "the time is 0" : NULL);
    if (write_new(request->words[0], file, n) != DONE)
        return FAILED;
    printf("page of %" PRIu64 " bytes\n", n);
    return DONE;
}

int run_new(const struct request *request) {
    uint32_t sides[6 + MOST_GIVEN] = {0}, elements[MOST_GIVEN * NUMBERS] = {0};
    uint8_t uuid[UUID];
    size_t room = 1 + (request->label == NULL ? 0 : strlen(request->label));
    page.name = request->words[0];
    if (sides_given("--grid", request->grid, sides) != DONE || sides_given("--tile", request->tile, sides + 2) != DONE)
        return FAILED;
    if (uuid_given(request->uuid, uuid) != DONE)
        return FAILED;
    for (int i = 0; i < request->element_count; i++)
        room += strlen(request->elements[i]);
    for (int i = 0; i < request->method_count; i++)
        room += strlen(request->methods[i]);
    char *texts = calloc(room, 1);
    if (texts == NULL)
        return failed("%s: %s", page.name, strerror(errno));
    int status = DONE;
    for (int i = 0; i < request->element_count && status == DONE; i++)
        status = element_told(request->elements[i], elements + i * NUMBERS, texts);
    for (int i = 0; i < request->method_count; i++)
        sides[6 + i] = (uint32_t)strlen(request->methods[i]), strcat(texts, request->methods[i]);
    if (request->label != NULL)
        sides[5] = (uint32_t)strlen(request->label), strcat(texts, request->label);
    sides[4] = !request->no_checksums;
    if (status == DONE)
        status = make_page(request, &(struct told){sides, 6 + (uint64_t)request->method_count, elements, (uint64_t)request->element_count, texts,
                                                   strlen(texts)}, uuid);
    free(texts);
    return status;
}
