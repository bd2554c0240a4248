/*
 * calls ROW CALL: makes one call of a row of the matrix twice and checks both times what came out. The second time it
 * is made by `measured`, which callgrind counts.
 * calls rows: the titles of the rows, one a line.
 */
#include "cases.h"
#include "lent.h"

#include <stdio.h>
#include <stdlib.h>
#include <string.h>

enum { SHEET, ACCEPT, FIRST, NEXT, CHECK, CALLS };

static const struct {
    const char *word;
    void (*make)(void);
} calls[CALLS] = {
    {"sheet", call_sheet}, {"accept", call_accept}, {"first", call_first}, {"next", call_next}, {"check", call_check},
};

struct row {
    const char *title, *expression, *name;
    const void *first, *next; /* the readings; null where there is none */
    uint64_t answers[CALLS];
};

/* The answer of the sheet call: the length stands above the number. It is 3 + leaves + nodes; a tree has one node less
   than twice its leaves, and one more for each star. */
#define MADE(length) (SATCHELRAM_DONE + 256u * (length))

/* The answers of the other four, by how many readings the name has. */
#define NONE SATCHELRAM_NO, SATCHELRAM_NO, SATCHELRAM_NO_READING, SATCHELRAM_NO
#define ONLY_ONE SATCHELRAM_DONE, SATCHELRAM_DONE, SATCHELRAM_NO, SATCHELRAM_DONE
#define MORE SATCHELRAM_DONE, SATCHELRAM_DONE, SATCHELRAM_DONE, SATCHELRAM_DONE

/* A reading as bytes. */
#define BYTES(...) ((const unsigned char[]){__VA_ARGS__})

/* In the last three rows every position fits every byte. So the first reading is all ones, and the next has a two at
   its end. */
static const struct row rows[] = {
    {"30 leaves, 16 bytes", EXPOSURE_30, WHOLE_30, BYTES(READING_30), NULL, {MADE(92), ONLY_ONE}},
    {"30 leaves, dropped", EXPOSURE_30, DROPPED_30, NULL, NULL, {MADE(92), NONE}},
    {"59 leaves, 16 bytes", EXPOSURE_59, WHOLE_59, BYTES(READING_59), NULL, {MADE(179), ONLY_ONE}},
    {"59 leaves, dropped", EXPOSURE_59, DROPPED_59, NULL, NULL, {MADE(179), NONE}},
    {"119 leaves, 16 bytes", EXPOSURE_119, WHOLE_119, BYTES(READING_119), NULL, {MADE(359), ONLY_ONE}},
    {"119 leaves, dropped", EXPOSURE_119, DROPPED_119, NULL, NULL, {MADE(359), NONE}},
    {"(a|a)*, 255 bytes", "(a|a)*", LONGEST, TIMES_254("\1") "\1", TIMES_254("\1") "\2", {MADE(9), MORE}},
    {DENSE_SHOWN ", 255 bytes", DENSE, LONGEST, TIMES_254("\1") "\1", TIMES_254("\1") "\2", {MADE(363), MORE}},
    {"64 leaves, 128 stars, 16 bytes", STARRY, FIFTEEN("a") "a",
     FIFTEEN("\1") "\1", FIFTEEN("\1") "\2", {MADE(322), MORE}},
};
enum { ROWS = sizeof rows / sizeof rows[0] };

/* No position, no form byte, and not the zero of a mapping without a reading. */
enum { STALE = 0xFF };

/* What the mapping must hold after the call. */
static uint8_t owed[sizeof mapping];

__attribute__((noreturn)) static void stop(const char *why)
{
    fprintf(stderr, "calls: %s\n", why);
    exit(1);
}

/* The function that callgrind counts. */
__attribute__((noinline, noclone)) static void measured(void (*make)(void))
{
    make();
}

static void plain(void (*make)(void))
{
    make();
}

/* Sets the bytes for the name to the reading, or to `otherwise` where there is none. The later ones are not lent, so no
   call may touch them. */
static void set(uint8_t *to, const struct row *row, const void *reading, int otherwise)
{
    size_t length = strlen(row->name);
    memset(to, STALE, sizeof mapping);
    if (reading)
        memcpy(to, reading, length);
    else
        memset(to, otherwise, length);
}

/* Before each call: next changes its mapping, and what the time before left must not pass for an answer. Next and check
   are given the first reading, or ones; all but first and next leave the mapping as it is. */
static void prepare(const struct row *row, int call)
{
    set(mapping, row, row->first, 1);
    memcpy(owed, mapping, sizeof owed);
    if (call == SHEET)
        memset(sheet, STALE, sizeof sheet);
    if (call == FIRST) {
        memset(mapping, STALE, sizeof mapping);
        set(owed, row, row->first, 0);
    }
    if (call == NEXT)
        set(owed, row, row->next, 0);
}

static void done(const struct row *row, int call, void (*by)(void (*)(void)))
{
    prepare(row, call);
    by(calls[call].make);
    if (answer != row->answers[call]) {
        fprintf(stderr, "calls: %s answers %u, %lu\n", calls[call].word, satchelram_number(answer),
                (unsigned long)satchelram_second(answer));
        stop("the answer is wrong");
    }
    if (memcmp(mapping, owed, sizeof owed) != 0)
        stop("the mapping is wrong");
    if (call == SHEET)
        sheet_length = satchelram_second(answer);
}

/* Zeroing a local array takes a few instructions more or less by where the stack stands, and that hangs on the lengths
   of the program's words and environment. The variable puts the stack of what is called here at a page's edge.
   The bytes of a measured sheet are not compared; the name's first reading by it is. */
static void twice(const struct row *row, int call)
{
    volatile char edge __attribute__((aligned(4096))) = 0;
    (void)edge;
    lend(row->expression, row->name);
    done(row, SHEET, plain);
    if (call != SHEET)
        done(row, call, plain);
    done(row, call, measured);
    if (call == SHEET)
        done(row, FIRST, plain);
}

static const struct row *row_of(const char *title)
{
    for (int row = 0; row < ROWS; row++)
        if (strcmp(rows[row].title, title) == 0)
            return &rows[row];
    stop("no such row");
}

static int call_of(const char *word)
{
    for (int call = 0; call < CALLS; call++)
        if (strcmp(calls[call].word, word) == 0)
            return call;
    stop("no such call");
}

int main(int count, char **words)
{
    if (count == 3)
        twice(row_of(words[1]), call_of(words[2]));
    else if (count == 2 && strcmp(words[1], "rows") == 0)
        for (int row = 0; row < ROWS; row++)
            puts(rows[row].title);
    else
        stop("usage: calls ROW sheet|accept|first|next|check, or calls rows");
    return 0;
}
