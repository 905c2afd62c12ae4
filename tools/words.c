/* tools/words.c: gvrs_refusal and gvrs_rule as functions of the shared library, for callers that do not read include/gvrs.h as C. */
#define gvrs_refusal words
#define gvrs_rule rule_words
#include "gvrs.h"
#undef gvrs_refusal
#undef gvrs_rule

const char *gvrs_refusal(uint32_t number);
const char *gvrs_rule(uint32_t rule);

const char *gvrs_refusal(uint32_t number) {
    return words(number);
}

const char *gvrs_rule(uint32_t rule) {
    return rule_words(rule);
}
