/* Stack that each call uses on large inputs: the call runs on a painted stack of its own, and the paint that is left is
   counted. The header promises 24 KiB for the sheet call and 16 KiB for the others. */
#include "cases.h"
#include "lent.h"

#include <stdio.h>
#include <stdlib.h>
#include <string.h>
#include <ucontext.h>

enum { STACK = 1 << 18, PAINT = 0xA5, DEEP = SATCHELRAM_OPEN_MOST };

static unsigned char stack[STACK];
static ucontext_t back, there;

static char deep[5 * DEEP + 2];

static void nothing(void)
{
}

static size_t used_by(void (*call)(void))
{
    size_t left = 0;
    memset(stack, PAINT, sizeof stack);
    if (getcontext(&there) != 0)
        exit(1);
    there.uc_stack.ss_sp = stack;
    there.uc_stack.ss_size = sizeof stack;
    there.uc_link = &back;
    makecontext(&there, call, 0);
    if (swapcontext(&back, &there) != 0)
        exit(1);
    while (left < sizeof stack && stack[left] == PAINT)
        left++;
    return sizeof stack - left;
}

static void report(const char *what, void (*call)(void))
{
    size_t used = used_by(call) - used_by(nothing);
    if (satchelram_number(answer) != SATCHELRAM_DONE) {
        fprintf(stderr, "stack: %s answers %u\n", what, satchelram_number(answer));
        exit(1);
    }
    printf("%-8s %6lu bytes\n", what, (unsigned long)used);
}

/* Parentheses as deep as they may be, with an alternation of sequences at each level. */
static void nest(void)
{
    for (int level = 0; level < DEEP; level++)
        strcat(deep, "a|a(");
    strcat(deep, "a");
    memset(deep + strlen(deep), ')', DEEP);
}

int main(void)
{
    nest();
    lend(deep, "");
    report("sheet", call_sheet);
    lend(DENSE, LONGEST);
    call_sheet();
    sheet_length = satchelram_second(answer);
    report("accept", call_accept);
    report("first", call_first);
    report("next", call_next);
    memset(mapping, 1, sizeof mapping);
    report("check", call_check);
    return 0;
}
