#include "engine.h"

#include <re2/re2.h>
#include <cstdio>
#include <cstdlib>

const char engine_name[] = "RE2";

static RE2 *code;

void engine_make(const char *expression, size_t length)
{
    char text[TRANSLATED_MOST];
    RE2::Options options;
    options.set_log_errors(false);
    code = new RE2(re2::StringPiece(text, translated(expression, length, text)), options);
    if (!code->ok()) {
        fprintf(stderr, "RE2 refuses the expression: %s\n", code->error().c_str());
        exit(1);
    }
}

int engine_read(const char *name, size_t length, unsigned char *positions)
{
    re2::StringPiece groups[LEAVES_MOST + 1];
    int count = 1 + code->NumberOfCapturingGroups();
    if (!code->Match(re2::StringPiece(name, length), 0, length, RE2::ANCHOR_BOTH, groups, count))
        return NOT_READ;
    for (int group = 1; group < count; group++)
        if (groups[group].data() && !groups[group].empty())
            positions[groups[group].data() - name] = (unsigned char)group;
    return READ;
}

void engine_drop(void)
{
    delete code;
}
