/* The five calls on buffers of the bench's own, all of one shape so that a program can hand them round. */
#ifndef LENT_H
#define LENT_H

#include <satchelram.h>

extern uint8_t sheet[SATCHELRAM_SHEET_MOST], mapping[SATCHELRAM_NAME_MOST];
extern size_t sheet_length;

/* What the last call answered. */
extern uint64_t answer;

/* The expression and the name of the calls that follow. Their lengths are taken here, so that no call counts it. */
void lend(const char *expression, const char *name);

/* The mapping and the work area are lent at exactly the lengths that the name asks for. The calls but the first need
   sheet_length. */
void call_sheet(void);
void call_accept(void);
void call_first(void);
void call_next(void);
void call_check(void);

#endif
