/*
 * Satchelram: reads camera exposure names by a regular expression.
 *
 * A text (the expression) is made into a sheet once. With the sheet, a name is accepted or not, its readings are
 * given one after another, and a sequence is checked. A reading says, byte by byte of the name, on which character of
 * the expression that byte stands, counted from 1. docs/MANUAL.md explains expressions and readings, docs/ANSWERS.md
 * every number, docs/PACKING.md how an answer is packed.
 *
 * Every reading of a name, in order, and then the number that ends them (a test compiles and runs these lines):
 *
 *     #include <satchelram.h>
 *     #include <stdio.h>
 *     #include <string.h>
 *
 *     static unsigned print_readings(const char *text, const char *name)
 *     {
 *         static uint8_t sheet[SATCHELRAM_SHEET_MOST], mapping[SATCHELRAM_NAME_MOST], work[SATCHELRAM_WORK_MOST];
 *         const uint8_t *bytes = (const uint8_t *)name;
 *         size_t length = strlen(name), sheet_length, i;
 *         uint64_t answer = satchelram_sheet((const uint8_t *)text, strlen(text), sheet, sizeof sheet);
 *         if (satchelram_number(answer) != SATCHELRAM_DONE)
 *             return satchelram_number(answer);
 *         sheet_length = satchelram_second(answer);
 *         answer = satchelram_first(sheet, sheet_length, bytes, length, mapping, sizeof mapping, work, sizeof work);
 *         while (satchelram_number(answer) == SATCHELRAM_DONE) {
 *             for (i = 0; i < length; i++)
 *                 printf("%s%u", i == 0 ? "" : ",", (unsigned)mapping[i]);
 *             printf("\n");
 *             answer = satchelram_next(sheet, sheet_length, bytes, length, mapping, sizeof mapping, work, sizeof work);
 *         }
 *         return satchelram_number(answer);
 *     }
 *
 * It returns SATCHELRAM_NO when all readings were printed, or there was none; any other number is a refusal, for which
 * satchelram_words has a phrase. There can be very many readings: a caller that lists them stops somewhere.
 *
 * Texts and names are bytes with a length. From a char *, lend (const uint8_t *)s with strlen(s); the 0 at its end, and
 * the line feed or carriage return of a line that was read, are no part of it. In C++:
 * reinterpret_cast<const uint8_t *>(s.data()) with s.size().
 *
 * What the caller owes, for no proof can see it:
 *
 *  - Each length is the true length in bytes of what its pointer points to, readable for its whole length, and
 *    writable too where the pointer is not const.
 *  - What is lent to be written (sheet of satchelram_sheet, mapping of first and next, work) overlaps nothing else
 *    that is lent to the same call. What is only read may overlap what is only read.
 *  - No pointer is null, also where its length is 0: point to any object. (The data() of an empty std::vector or
 *    std::string_view may be null.)
 *  - Stack: 16 KiB must be free for accept, first, next and check, 24 KiB for satchelram_sheet.
 *
 * In return: every input gets a definite answer, refused ones too. Nothing is allocated or kept between calls, and
 * nothing but the buffers lent to be written changes, so calls on different buffers may run on several threads at once.
 * A buffer may stand at any address: alignment does not matter.
 *
 * A sheet is plain bytes, the same on every machine, so it may be stored in a file and read back elsewhere. With L
 * characters and N nodes its layout is
 *
 *     1 (the form)   L   the L characters, by position   N   the N nodes, postorder
 *
 * where a node is 0 a character (it takes the next position), 1 the empty word, 2 one piece after another, 3 either of
 * two pieces, 4 a star. Keep the length with it. Every name call tests the sheet before all else; to test a loaded one
 * alone, call satchelram_accept with a name of length 0 and a work area of SATCHELRAM_WORK_SIZE(0) bytes: 0 or 1 says
 * that it is a sheet, 20 to 27 what is wrong with it.
 *
 * For C99 and later, and C++98 and later. The library is ELF for x86-64 with System V calls (Linux), position
 * independent, and imports nothing but memcpy and memset.
 */
#ifndef SATCHELRAM_H
#define SATCHELRAM_H

#include <stddef.h>
#include <stdint.h>

#ifdef __cplusplus
extern "C" {
#endif

/* The version of this header; satchelram_version gives that of the library. */
#define SATCHELRAM_VERSION "0.1.0"
#define SATCHELRAM_VERSION_MAJOR 0
#define SATCHELRAM_VERSION_MINOR 1
#define SATCHELRAM_VERSION_PATCH 0
/* 1,000,000 x major + 1,000 x minor + patch */
#define SATCHELRAM_VERSION_NUMBER \
    (SATCHELRAM_VERSION_MAJOR * 1000000 + SATCHELRAM_VERSION_MINOR * 1000 + SATCHELRAM_VERSION_PATCH)

/* A cast as the language at hand likes it. */
#ifdef __cplusplus
#define SATCHELRAM_AS(type, value) static_cast<type>(value)
#else
#define SATCHELRAM_AS(type, value) ((type)(value))
#endif

/* Bounds. */
#define SATCHELRAM_TEXT_MOST 512        /* bytes of a text */
#define SATCHELRAM_OPEN_MOST 32         /* parentheses open at once */
#define SATCHELRAM_LEAVES_MOST 120      /* characters of an expression, each copy of a repeat counted */
#define SATCHELRAM_NODES_MOST 255       /* nodes of an expression's tree */
#define SATCHELRAM_WAITING_MOST 128     /* subtrees that wait at once while a sheet is tested */
#define SATCHELRAM_NAME_MOST 255        /* bytes of a name */

/* Sizes in bytes. A sheet is 3 + characters + nodes long; this holds any. */
#define SATCHELRAM_SHEET_MOST (3 + SATCHELRAM_LEAVES_MOST + SATCHELRAM_NODES_MOST)
/* The work area: a row for each place before, between and after the name's bytes. */
#define SATCHELRAM_ROW 64
/* The work area for a name of this length; constant where the length is. A length near SIZE_MAX wraps round, and is
   refused anyway (SATCHELRAM_NAME_LONG). */
#define SATCHELRAM_WORK_SIZE(name_length) \
    (SATCHELRAM_AS(size_t, SATCHELRAM_ROW) * (SATCHELRAM_AS(size_t, name_length) + 1))
/* Holds the work area of any name. */
#define SATCHELRAM_WORK_MOST SATCHELRAM_WORK_SIZE(SATCHELRAM_NAME_MOST)

/* The numbers. With each refusal of a text, `second` is the place of the fault, counted in bytes from 0, unless
   another meaning is given here; with all others it is 0. */
#define SATCHELRAM_DONE 0u                /* made (second: the sheet's length), accepted, found, yes */
#define SATCHELRAM_NO 1u                  /* not in the language, no more readings, not a reading (check) */

/* Refusals of a text, by satchelram_sheet. */
#define SATCHELRAM_TEXT_LONG 10u          /* text longer than 512 bytes; place 512 */
#define SATCHELRAM_TEXT_BYTE 11u          /* byte outside 0x20 to 0x7E, or a backslash without a mark after it */
#define SATCHELRAM_OPERAND_MISSING 12u    /* nothing to stand before a bar, star, closing parenthesis or the end */
#define SATCHELRAM_CLOSE_UNOPENED 13u     /* closing parenthesis with nothing open */
#define SATCHELRAM_OPEN_UNCLOSED 14u      /* the text ends with a parenthesis open; place is the text's length */
#define SATCHELRAM_OPEN_DEEP 15u          /* the 33rd parenthesis open at once */
#define SATCHELRAM_LEAVES_MANY 16u        /* more than 120 characters; place of the one that passes 120 */
#define SATCHELRAM_NODES_MANY 17u         /* more than 255 nodes; place is the text's length */
#define SATCHELRAM_SHEET_SHORT 18u        /* sheet buffer too short; second is the length needed */
#define SATCHELRAM_REPEAT_FAULT 19u       /* opening brace not directly after a literal, or its repeat malformed or with
                                             the first number above the second; or a lone closing brace */

/* Refusals of a sheet, by the other four calls. The first of these that holds is given. */
#define SATCHELRAM_SHEET_FORM 20u         /* sheet empty, or its form byte not 1 */
#define SATCHELRAM_SHEET_LENGTH 21u       /* a count byte absent, or a length other than the counts say */
#define SATCHELRAM_SHEET_LEAVES 22u       /* more than 120 literals */
#define SATCHELRAM_SHEET_BYTE 23u         /* literal outside 0x20 to 0x7E, or node byte above 4 */
#define SATCHELRAM_WAITING_FEW 24u        /* a node finds too few subtrees waiting */
#define SATCHELRAM_WAITING_END 25u        /* not exactly one subtree waiting at the end */
#define SATCHELRAM_WAITING_MANY 26u       /* more than 128 subtrees waiting at once; never given, since 25 comes first */
#define SATCHELRAM_LEAVES_UNEQUAL 27u     /* the leaf nodes are not as many as the literals */

/* Refusals of a name and of what is lent with it, in this order, after those of the sheet. */
#define SATCHELRAM_NAME_LONG 30u          /* name longer than 255 bytes */
#define SATCHELRAM_MAPPING_SHORT 31u      /* mapping shorter than the name; not given by accept */
#define SATCHELRAM_WORK_SHORT 32u         /* work area shorter than SATCHELRAM_WORK_SIZE of the name's length */
#define SATCHELRAM_NO_READING 33u         /* satchelram_next was given a sequence that is no reading */

/* A call's answer is number + 2^8 x second + 2^32 x third. These take it apart. */

static inline unsigned satchelram_number(uint64_t answer)
{
    return SATCHELRAM_AS(unsigned, answer & 0xFF);
}

/* A place, or the length that satchelram_sheet gives with 0 and 18, or 0. */
static inline uint32_t satchelram_second(uint64_t answer)
{
    return SATCHELRAM_AS(uint32_t, (answer >> 8) & 0xFFFFFF);
}

/* Kept for later calls: 0 in every answer of the calls below. */
static inline uint32_t satchelram_third(uint64_t answer)
{
    return SATCHELRAM_AS(uint32_t, answer >> 32);
}

/* A number in words: those of its heading in docs/ANSWERS.md. */
static inline const char *satchelram_words(unsigned number)
{
    switch (number) {
    case SATCHELRAM_DONE:
        return "made, accepted, found, yes";
    case SATCHELRAM_NO:
        return "not in the language, no more, not a reading";
    case SATCHELRAM_TEXT_LONG:
        return "the text is longer than 512 bytes";
    case SATCHELRAM_TEXT_BYTE:
        return "a byte that no expression has, or a backslash without a mark";
    case SATCHELRAM_OPERAND_MISSING:
        return "an operand is missing";
    case SATCHELRAM_CLOSE_UNOPENED:
        return ") with nothing open";
    case SATCHELRAM_OPEN_UNCLOSED:
        return "the text ends with ( open";
    case SATCHELRAM_OPEN_DEEP:
        return "the 33rd parenthesis open at once";
    case SATCHELRAM_LEAVES_MANY:
        return "more than 120 characters";
    case SATCHELRAM_NODES_MANY:
        return "more than 255 nodes";
    case SATCHELRAM_SHEET_SHORT:
        return "the sheet buffer is too short";
    case SATCHELRAM_REPEAT_FAULT:
        return "a brace that is no repeat";
    case SATCHELRAM_SHEET_FORM:
        return "no sheet: empty, or its form byte is not 1";
    case SATCHELRAM_SHEET_LENGTH:
        return "the sheet's length is not what its counts say";
    case SATCHELRAM_SHEET_LEAVES:
        return "the sheet has more than 120 literals";
    case SATCHELRAM_SHEET_BYTE:
        return "a literal or node byte out of its range";
    case SATCHELRAM_WAITING_FEW:
        return "a node finds too few subtrees waiting";
    case SATCHELRAM_WAITING_END:
        return "not exactly one subtree waiting at the end";
    case SATCHELRAM_WAITING_MANY:
        return "more than 128 subtrees waiting at once";
    case SATCHELRAM_LEAVES_UNEQUAL:
        return "leaf nodes and literals differ in number";
    case SATCHELRAM_NAME_LONG:
        return "the name is longer than 255 bytes";
    case SATCHELRAM_MAPPING_SHORT:
        return "the mapping is shorter than the name";
    case SATCHELRAM_WORK_SHORT:
        return "the work area is too short";
    case SATCHELRAM_NO_READING:
        return "next was given a sequence that is no reading";
    default:
        return "no number of Satchelram";
    }
}

/* The version of the library that was linked or loaded. It belongs to this header if it is SATCHELRAM_VERSION_NUMBER. */
uint64_t satchelram_version(void);

/* Makes the sheet of a text. 0: the sheet stands at the front of the buffer and second is its length; the rest of the
   buffer is zero. Any other answer, 10 to 19: the whole buffer is zero. */
uint64_t satchelram_sheet(const uint8_t *text, size_t text_length,
                          uint8_t *sheet, size_t sheet_length);

/*
 * The name calls. sheet_length is the sheet's own length, not that of a longer buffer it stands in.
 *
 * work is scratch of SATCHELRAM_WORK_SIZE(name_length) bytes; what it holds at entry does not matter. Answers 0, 1
 * and 33 leave those bytes zero and any further ones as they were; refusals 20 to 32 leave all of it as it was.
 *
 * mapping holds one byte for each byte of the name: the position it stands on. It may be longer than the name.
 */

/* Is the name in the language? 0 yes, 1 no, or 20 to 27, 30, 32. */
uint64_t satchelram_accept(const uint8_t *sheet, size_t sheet_length,
                           const uint8_t *name, size_t name_length,
                           uint8_t *work, size_t work_length);

/* The first reading of the name. 0: it stands at the front of the mapping and the rest of the mapping is zero.
   1 (there is none), 20 to 27, 30 to 32: the whole mapping is zero. */
uint64_t satchelram_first(const uint8_t *sheet, size_t sheet_length,
                          const uint8_t *name, size_t name_length,
                          uint8_t *mapping, size_t mapping_length,
                          uint8_t *work, size_t work_length);

/* The next reading after the one that the mapping holds. 0: it stands at the front of the mapping and the rest of the
   mapping is zero. 1 (there is no more), 20 to 27, 30 to 33: the whole mapping is zero. */
uint64_t satchelram_next(const uint8_t *sheet, size_t sheet_length,
                         const uint8_t *name, size_t name_length,
                         uint8_t *mapping, size_t mapping_length,
                         uint8_t *work, size_t work_length);

/* Is the sequence at the front of the mapping a reading of the name? 0 yes, 1 no, or 20 to 27, 30 to 32. The mapping is
   only read. */
uint64_t satchelram_check(const uint8_t *sheet, size_t sheet_length,
                          const uint8_t *name, size_t name_length,
                          const uint8_t *mapping, size_t mapping_length,
                          uint8_t *work, size_t work_length);

#ifdef __cplusplus
}
#endif

#endif
