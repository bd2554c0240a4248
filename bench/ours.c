#include "engine.h"

#include <satchelram.h>
#include <stdio.h>
#include <stdlib.h>

const char engine_name[] = "satchelram";

static uint8_t sheet[SATCHELRAM_SHEET_MOST];
static size_t sheet_length;
static uint8_t work[SATCHELRAM_WORK_MOST];

void engine_make(const char *expression, size_t length)
{
    uint64_t answer = satchelram_sheet((const uint8_t *)expression, length, sheet, sizeof sheet);
    if (satchelram_number(answer) != SATCHELRAM_DONE) {
        fprintf(stderr, "satchelram refuses the expression: %u\n", satchelram_number(answer));
        exit(1);
    }
    sheet_length = satchelram_second(answer);
}

int engine_read(const char *name, size_t length, unsigned char *positions)
{
    uint64_t answer = satchelram_first(sheet, sheet_length, (const uint8_t *)name, length, positions, length, work, SATCHELRAM_WORK_SIZE(length));
    return satchelram_number(answer) == SATCHELRAM_DONE ? READ : NOT_READ;
}

void engine_drop(void)
{
}
