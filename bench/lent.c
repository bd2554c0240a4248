#include "lent.h"

#include <string.h>

uint8_t sheet[SATCHELRAM_SHEET_MOST], mapping[SATCHELRAM_NAME_MOST];
size_t sheet_length;
uint64_t answer;

static const uint8_t *text, *name;
static size_t text_length, name_length, work_length;
static uint8_t work[SATCHELRAM_WORK_MOST];

void lend(const char *expression_lent, const char *name_lent)
{
    text = (const uint8_t *)expression_lent;
    text_length = strlen(expression_lent);
    name = (const uint8_t *)name_lent;
    name_length = strlen(name_lent);
    work_length = SATCHELRAM_WORK_SIZE(name_length);
}

void call_sheet(void)
{
    answer = satchelram_sheet(text, text_length, sheet, sizeof sheet);
}

void call_accept(void)
{
    answer = satchelram_accept(sheet, sheet_length, name, name_length, work, work_length);
}

void call_first(void)
{
    answer = satchelram_first(sheet, sheet_length, name, name_length, mapping, name_length, work, work_length);
}

void call_next(void)
{
    answer = satchelram_next(sheet, sheet_length, name, name_length, mapping, name_length, work, work_length);
}

void call_check(void)
{
    answer = satchelram_check(sheet, sheet_length, name, name_length, mapping, name_length, work, work_length);
}
