#include "engine.h"

#define PCRE2_CODE_UNIT_WIDTH 8
#include <pcre2.h>
#include <stdio.h>
#include <stdlib.h>

const char engine_name[] = "PCRE2";

static pcre2_code *code;
static pcre2_match_data *match;

void engine_make(const char *expression, size_t length)
{
    char text[TRANSLATED_MOST];
    int error;
    PCRE2_SIZE place;
    size_t text_length = translated(expression, length, text);
    code = pcre2_compile((PCRE2_SPTR)text, text_length, PCRE2_ANCHORED | PCRE2_ENDANCHORED, &error, &place, NULL);
    match = code ? pcre2_match_data_create_from_pattern(code, NULL) : NULL;
    if (!match) {
        fprintf(stderr, "PCRE2 refuses the expression: %d at %lu\n", error, (unsigned long)place);
        exit(1);
    }
}

int engine_read(const char *name, size_t length, unsigned char *positions)
{
    int groups = pcre2_match(code, (PCRE2_SPTR)name, length, 0, 0, match, NULL);
    PCRE2_SIZE *offsets = pcre2_get_ovector_pointer(match);
    if (groups == PCRE2_ERROR_NOMATCH)
        return NOT_READ;
    if (groups < 0)
        return GAVE_UP;
    for (int group = 1; group < groups; group++)
        if (offsets[2 * group] < length)
            positions[offsets[2 * group]] = (unsigned char)group;
    return READ;
}

void engine_drop(void)
{
    pcre2_match_data_free(match);
    pcre2_code_free(code);
}
