/* Holds every name of satchelram.h against what the archive does; expected answers from document 01.
   Compiled as C and as C++, with warnings as errors. */
#include "satchelram.h"

#include <stdio.h>
#include <string.h>

/* The macros that give sizes must be constants. */
static uint8_t sheet[SATCHELRAM_SHEET_MOST];
static uint8_t work[SATCHELRAM_WORK_MOST];
static uint8_t mapping[SATCHELRAM_NAME_MOST];
static uint8_t bytes[SATCHELRAM_TEXT_MOST + 1];
static int tests, faults;

static void expect(const char *what, uint64_t answer, unsigned number, size_t second)
{
    tests++;
    if (satchelram_number(answer) != number || satchelram_second(answer) != second || satchelram_third(answer) != 0) {
        faults++;
        fprintf(stderr, "header: %s: answer %u, %lu, %lu, expected %u, %lu, 0\n", what, satchelram_number(answer),
                (unsigned long)satchelram_second(answer), (unsigned long)satchelram_third(answer), number, (unsigned long)second);
    }
}

/* The front of `bytes`: `count` times the same byte, then `last`. Gives the length. */
static size_t many(int byte, size_t count, const char *last)
{
    memset(bytes, byte, count);
    memcpy(bytes + count, last, strlen(last));
    return count + strlen(last);
}

static uint64_t made(size_t length)
{
    return satchelram_sheet(bytes, length, sheet, sizeof sheet);
}

static uint64_t made_of(const char *text)
{
    return made(many(0, 0, text));
}

static void unpacking(void)
{
    uint64_t answer = 0xFEDCBA9876543210;
    tests++;
    if (satchelram_number(answer) != 0x10 || satchelram_second(answer) != 0x765432 || satchelram_third(answer) != 0xFEDCBA98) {
        faults++;
        fprintf(stderr, "header: an answer is unpacked wrongly\n");
    }
}

/* The header's version in its three forms, and the archive's. */
static void versions(void)
{
    char text[40];
    sprintf(text, "%d.%d.%d", SATCHELRAM_VERSION_MAJOR, SATCHELRAM_VERSION_MINOR, SATCHELRAM_VERSION_PATCH);
    tests += 2;
    if (strcmp(text, SATCHELRAM_VERSION) != 0) {
        faults++;
        fprintf(stderr, "header: version %s is not %s\n", text, SATCHELRAM_VERSION);
    }
    if (satchelram_version() != SATCHELRAM_VERSION_NUMBER) {
        faults++;
        fprintf(stderr, "header: version %d, the archive's is %lu\n", SATCHELRAM_VERSION_NUMBER, (unsigned long)satchelram_version());
    }
}

static void texts(void)
{
    expect("made", made_of("a"), SATCHELRAM_DONE, 5);
    expect("byte", made_of("a\x01"), SATCHELRAM_TEXT_BYTE, 1);
    expect("operand", made_of("a|*"), SATCHELRAM_OPERAND_MISSING, 2);
    expect("close", made_of("a)"), SATCHELRAM_CLOSE_UNOPENED, 1);
    expect("open", made_of("(a|"), SATCHELRAM_OPEN_UNCLOSED, 3);
    expect("repeat", made_of("a*{1,2}"), SATCHELRAM_REPEAT_FAULT, 2);
}

/* Each bound of a text, on both sides. */
static void text_bounds(void)
{
    expect("text", made(many('a', SATCHELRAM_TEXT_MOST, "")), SATCHELRAM_LEAVES_MANY, SATCHELRAM_LEAVES_MOST);
    expect("text long", made(many('a', SATCHELRAM_TEXT_MOST, "a")), SATCHELRAM_TEXT_LONG, SATCHELRAM_TEXT_MOST);
    expect("deep", made(many('(', SATCHELRAM_OPEN_MOST, "")), SATCHELRAM_OPEN_UNCLOSED, SATCHELRAM_OPEN_MOST);
    expect("too deep", made(many('(', SATCHELRAM_OPEN_MOST, "(")), SATCHELRAM_OPEN_DEEP, SATCHELRAM_OPEN_MOST);
    expect("leaves", made(many('a', SATCHELRAM_LEAVES_MOST, "")), SATCHELRAM_DONE, 3 + 2 * SATCHELRAM_LEAVES_MOST + SATCHELRAM_LEAVES_MOST - 1);
    expect("leaves many", made(many('a', SATCHELRAM_LEAVES_MOST, "a")), SATCHELRAM_LEAVES_MANY, SATCHELRAM_LEAVES_MOST);
    /* The empty word and stars. */
    many('*', SATCHELRAM_NODES_MOST + 2, "");
    memcpy(bytes, "()", 2);
    expect("nodes", made(SATCHELRAM_NODES_MOST + 1), SATCHELRAM_DONE, 3 + SATCHELRAM_NODES_MOST);
    expect("nodes many", made(SATCHELRAM_NODES_MOST + 2), SATCHELRAM_NODES_MANY, SATCHELRAM_NODES_MOST + 2);
}

/* The largest sheet: 120 leaves, 119 concatenations, 16 stars. */
static void sheet_room(void)
{
    size_t length = many('a', SATCHELRAM_LEAVES_MOST, "****************");
    expect("exact", satchelram_sheet(bytes, length, sheet, SATCHELRAM_SHEET_MOST), SATCHELRAM_DONE, SATCHELRAM_SHEET_MOST);
    expect("short", satchelram_sheet(bytes, length, sheet, SATCHELRAM_SHEET_MOST - 1), SATCHELRAM_SHEET_SHORT, SATCHELRAM_SHEET_MOST);
    expect("empty", satchelram_sheet(bytes, length, sheet, 0), SATCHELRAM_SHEET_SHORT, SATCHELRAM_SHEET_MOST);
}

/* What a sheet of these bytes is answered for the empty name, by all four name calls. */
static void tested(const char *what, const uint8_t *given, size_t length, unsigned number)
{
    unsigned next = number == SATCHELRAM_NO ? SATCHELRAM_NO_READING : number == SATCHELRAM_DONE ? SATCHELRAM_NO : number;
    expect(what, satchelram_accept(given, length, bytes, 0, work, SATCHELRAM_WORK_SIZE(0)), number, 0);
    expect(what, satchelram_first(given, length, bytes, 0, mapping, 0, work, sizeof work), number, 0);
    expect(what, satchelram_next(given, length, bytes, 0, mapping, 0, work, sizeof work), next, 0);
    expect(what, satchelram_check(given, length, bytes, 0, mapping, 0, work, sizeof work), number, 0);
}

static void sheets(void)
{
    static const uint8_t void_word[] = {1, 0, 1, 1}, letter[] = {1, 1, 'a', 1, 0}, form[] = {2, 0, 1, 1}, longer[] = {1, 0, 1, 1, 0};
    static const uint8_t node[] = {1, 0, 1, 5}, few[] = {1, 0, 1, 4}, many_left[] = {1, 0, 2, 1, 1}, unequal[] = {1, 0, 1, 0};
    tested("void", void_word, sizeof void_word, SATCHELRAM_DONE);
    tested("letter", letter, sizeof letter, SATCHELRAM_NO);
    tested("form", form, sizeof form, SATCHELRAM_SHEET_FORM);
    tested("nothing", form, 0, SATCHELRAM_SHEET_FORM);
    tested("longer", longer, sizeof longer, SATCHELRAM_SHEET_LENGTH);
    tested("node", node, sizeof node, SATCHELRAM_SHEET_BYTE);
    tested("few", few, sizeof few, SATCHELRAM_WAITING_FEW);
    tested("two left", many_left, sizeof many_left, SATCHELRAM_WAITING_END);
    tested("unequal", unequal, sizeof unequal, SATCHELRAM_LEAVES_UNEQUAL);
}

/* A sheet of so many literals and no node. */
static size_t literals(size_t count)
{
    memset(sheet, 'a', count + 3);
    sheet[0] = 1;
    sheet[1] = (uint8_t)count;
    sheet[count + 2] = 0;
    return count + 3;
}

/* A sheet without literals, of so many empty words and concatenations. */
static size_t waiting(size_t words, size_t joins)
{
    sheet[0] = 1;
    sheet[1] = 0;
    sheet[2] = (uint8_t)(words + joins);
    memset(sheet + 3, 1, words);
    memset(sheet + 3 + words, 2, joins);
    return 3 + words + joins;
}

static void sheet_bounds(void)
{
    tested("literals", sheet, literals(SATCHELRAM_LEAVES_MOST), SATCHELRAM_WAITING_END);
    tested("literals many", sheet, literals(SATCHELRAM_LEAVES_MOST + 1), SATCHELRAM_SHEET_LEAVES);
    tested("waiting", sheet, waiting(SATCHELRAM_WAITING_MOST, SATCHELRAM_WAITING_MOST - 1), SATCHELRAM_DONE);
    /* More wait than may, and no node is left to join them all: 25 comes before 26. */
    tested("waiting many", sheet, waiting(SATCHELRAM_WAITING_MOST + 1, SATCHELRAM_WAITING_MOST - 2), SATCHELRAM_WAITING_END);
    tests++;
    if (SATCHELRAM_WAITING_MANY != 26) {
        faults++;
        fprintf(stderr, "header: the number never given is not 26\n");
    }
}

/* `a*` by names of a's with buffers on both sides of what they need. */
static void names(size_t length)
{
    static const uint8_t star[] = {1, 1, 'a', 2, 0, 4};
    size_t area = SATCHELRAM_WORK_SIZE(length);
    many('a', length, "");
    expect("accept", satchelram_accept(star, sizeof star, bytes, length, work, area), SATCHELRAM_DONE, 0);
    expect("first", satchelram_first(star, sizeof star, bytes, length, mapping, length, work, area), SATCHELRAM_DONE, 0);
    expect("check", satchelram_check(star, sizeof star, bytes, length, mapping, length, work, area), SATCHELRAM_DONE, 0);
    expect("next", satchelram_next(star, sizeof star, bytes, length, mapping, length, work, area), SATCHELRAM_NO, 0);
    expect("next again", satchelram_next(star, sizeof star, bytes, length, mapping, length, work, area), SATCHELRAM_NO_READING, 0);
    expect("check zeros", satchelram_check(star, sizeof star, bytes, length, mapping, length, work, area), SATCHELRAM_NO, 0);
    expect("work", satchelram_accept(star, sizeof star, bytes, length, work, area - 1), SATCHELRAM_WORK_SHORT, 0);
    expect("work", satchelram_first(star, sizeof star, bytes, length, mapping, length, work, area - 1), SATCHELRAM_WORK_SHORT, 0);
    expect("mapping", satchelram_first(star, sizeof star, bytes, length, mapping, length - 1, work, area), SATCHELRAM_MAPPING_SHORT, 0);
    expect("mapping", satchelram_next(star, sizeof star, bytes, length, mapping, length - 1, work, area), SATCHELRAM_MAPPING_SHORT, 0);
    expect("mapping", satchelram_check(star, sizeof star, bytes, length, mapping, length - 1, work, area), SATCHELRAM_MAPPING_SHORT, 0);
    bytes[length - 1] = 'b';
    expect("accept", satchelram_accept(star, sizeof star, bytes, length, work, area), SATCHELRAM_NO, 0);
    expect("first", satchelram_first(star, sizeof star, bytes, length, mapping, length, work, area), SATCHELRAM_NO, 0);
}

static void name_bounds(void)
{
    static const uint8_t star[] = {1, 1, 'a', 2, 0, 4};
    size_t length = many('a', SATCHELRAM_NAME_MOST, "a");
    names(1);
    names(16);
    names(SATCHELRAM_NAME_MOST);
    expect("name long", satchelram_accept(star, sizeof star, bytes, length, work, 0), SATCHELRAM_NAME_LONG, 0);
    expect("name long", satchelram_first(star, sizeof star, bytes, length, mapping, 0, work, 0), SATCHELRAM_NAME_LONG, 0);
}

int main(void)
{
    unpacking();
    versions();
    texts();
    text_bounds();
    sheet_room();
    sheets();
    sheet_bounds();
    name_bounds();
    printf("header: %d tests, %d faults\n", tests, faults);
    return faults != 0;
}
