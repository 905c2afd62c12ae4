/* cli/explain.c: why a page is refused: the rule that it breaks, below the refusal where that is wanted. */
#include <stdio.h>
#include <string.h>
#include "cli.h"

int why_wanted;

/* What out[] of gvrs_explain holds. */
enum { PLACE, RULE, NUMBER, POSITION, FOUND, WANTED, NUMBERS };

/* What the number of a rule counts. */
enum counted { NOTHING, SIDE, ELEMENT, RECORD, CHAIN, TYPED, DIRECTION, TILE };

static enum counted counted(uint64_t rule) {
    switch (rule) {
    case 9: case 10: case 28: return SIDE;
    case 17: case 18: case 19: case 20: case 21: case 22: case 43: case 44: return ELEMENT;
    case 33: case 34: case 35: case 36: case 37: case 39: case 40: case 41: case 42: case 45: case 46: case 47: case 48: return RECORD;
    case 38: return CHAIN;
    case 50: case 61: case 66: case 69: case 75: return TYPED;
    case 53: case 54: case 55: return DIRECTION;
    case 58: case 59: return TILE;
    default: return NOTHING;
    }
}

/* Whether what is found and what is wanted are compared by the rule, and known: of a file that is too long no more than a byte too many is
   read. */
static int compares(uint64_t rule) {
    switch (rule) {
    case 2: case 18: case 19: case 20: case 21: case 22: case 26: case 27: case 46: case 48: case 49: case 59: case 60: case 67: case 68: return 0;
    default: return 1;
    }
}

/* What breaks the rule; nothing where the rule is of one thing only. */
static void name_counted(const uint64_t *out, char *name, size_t room) {
    static const char *const SIDES[] = {"grid rows", "grid columns", "tile rows", "tile columns"};
    uint64_t number = out[NUMBER];
    name[0] = '\0';
    switch (counted(out[RULE])) {
    case NOTHING: break;
    case SIDE: snprintf(name, room, "%s", SIDES[number & 3]); break;
    case ELEMENT: snprintf(name, room, "element %" PRIu64, number); break;
    case RECORD: snprintf(name, room, "record %" PRIu64 " behind the header", number); break;
    case CHAIN:
        if (number == 0)
            snprintf(name, room, "header");
        else
            snprintf(name, room, "record %" PRIu64 " behind the header", number - 1);
        break;
    case TYPED: snprintf(name, room, "record %" PRIu64 " of its type", number); break;
    case DIRECTION: snprintf(name, room, "%s", number == 0 ? "rows" : "columns"); break;
    case TILE: snprintf(name, room, "tile %" PRIu64, number); break;
    }
}

/* A correction can be refused with a number that the page by itself is not, and so can a front that is too long: of these nothing is said. */
int reason(const struct page *refused, uint32_t number, uint64_t place, struct reason *why) {
    uint64_t out[NUMBERS];
    *why = (struct reason){0};
    if (number == GVRS_ACCEPTED || gvrs_explain(refused->bytes, refused->n, out, NUMBERS) != number || out[PLACE] != place)
        return 0;
    why->rule = (uint32_t)out[RULE], why->position = out[POSITION];
    why->compared = compares(out[RULE]), why->found = out[FOUND], why->wanted = out[WANTED];
    name_counted(out, why->what, sizeof why->what);
    return 1;
}

/* The rule's words stand behind what breaks it, unless they are those of the refusal, which are said already. */
void say_reason(const struct reason *why, uint32_t number, char *text, size_t room) {
    const char *rule = gvrs_rule(why->rule), *first = why->what[0] == '\0' ? "" : ": ", *second = ": ";
    char compared[80] = "";
    if (strcmp(rule, gvrs_refusal(number)) == 0)
        rule = second = "";
    if (why->compared)
        snprintf(compared, sizeof compared, ": found %" PRIu64 ", wanted %" PRIu64, why->found, why->wanted);
    snprintf(text, room, "%s%s%s%s, at %" PRIu64 "%s", first, why->what, second, rule, why->position, compared);
}

void explain(const struct page *refused, uint32_t number, uint64_t place) {
    struct reason why;
    char text[300];
    if (!why_wanted || !reason(refused, number, place, &why))
        return;
    say_reason(&why, number, text, sizeof text);
    failed("%s%s", gvrs_refusal(number), text);
}
