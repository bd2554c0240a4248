/*
 * bench WORK [plain]: does one piece of work with the engine that it is linked with and checks what came out.
 *
 *   once     expression to reading, everything dropped again
 *   name     reading a name, the expression taken in before
 *   dropped  as name, with a byte of the name dropped
 *   wild     pathological expressions, timed one by one
 *
 * plain: PCRE2 and RE2 only say yes or no. The work is done in a function `measured_..`, after the same work was done
 * once before; callgrind counts that function.
 */
#define _POSIX_C_SOURCE 199309L
#include "cases.h"
#include "engine.h"

#include <stdio.h>
#include <stdlib.h>
#include <string.h>
#include <time.h>

static const char exposure[] = EXPOSURE_119;
static const char whole[] = WHOLE_119;
static const char dropped[] = DROPPED_119;
static const unsigned char reading[] = {READING_119};

static unsigned char positions[NAME_MOST];

static int with_positions = 1;

size_t translated(const char *expression, size_t length, char *to)
{
    size_t end = 0;
    for (size_t i = 0; i < length; i++) {
        if (expression[i] == '(') {
            memcpy(to + end, "(?:", 3);
            end += 3;
        } else if (!with_positions || strchr("|*)", expression[i])) {
            to[end++] = expression[i];
        } else {
            to[end++] = '(';
            to[end++] = expression[i];
            to[end++] = ')';
        }
    }
    return end;
}

static void stop(const char *why)
{
    fprintf(stderr, "bench: %s: %s\n", engine_name, why);
    exit(1);
}

static int once(const char *name)
{
    engine_make(exposure, strlen(exposure));
    int answer = engine_read(name, strlen(name), positions);
    engine_drop();
    return answer;
}

/* The functions that callgrind counts. */
__attribute__((noinline)) static int measured_once(void)
{
    return once(whole);
}

__attribute__((noinline)) static int measured_read(const char *name)
{
    return engine_read(name, strlen(name), positions);
}

static void checked(int answer, int expected)
{
    if (answer != expected)
        stop("the answer is wrong");
    if (expected == READ && with_positions && memcmp(positions, reading, sizeof reading) != 0)
        stop("the reading is wrong");
}

static double now(void)
{
    struct timespec time;
    clock_gettime(CLOCK_MONOTONIC, &time);
    return (double)time.tv_sec * 1e6 + (double)time.tv_nsec / 1e3;
}

/* The least time of several in microseconds; few where one takes long. */
static double timed(const char *name, size_t length, int *answer)
{
    double least = 1e18, spent = 0;
    for (int round = 0; round < 20 && spent < 2e6; round++) {
        double start = now();
        *answer = engine_read(name, length, positions);
        double took = now() - start;
        spent += took;
        if (took < least)
            least = took;
    }
    return least;
}

static void wild_one(const char *expression, const char *shown, int last)
{
    char name[NAME_MOST];
    int answer = GAVE_UP;
    memset(name, 'a', sizeof name);
    name[sizeof name - 1] = (char)last;
    engine_make(expression, strlen(expression));
    double took = timed(name, sizeof name, &answer);
    engine_drop();
    printf("%-12s %-22s %-5s %-8s %10.1f us\n", engine_name, shown, last == 'a' ? "fits" : "not",
           answer == READ ? "read" : answer == NOT_READ ? "not read" : "gave up", took);
}

static void wild(void)
{
    static const char *const expressions[] = {"(a|a)*", "(a*)*", "(a|aa)*", "(a|b|ab)*"};
    for (size_t i = 0; i < sizeof expressions / sizeof expressions[0]; i++) {
        wild_one(expressions[i], expressions[i], 'a');
        wild_one(expressions[i], expressions[i], 'c');
    }
    wild_one(DENSE, DENSE_SHOWN, 'a');
    wild_one(DENSE, DENSE_SHOWN, 'c');
}

static void work_once(void)
{
    checked(once(whole), READ);
    memset(positions, 0, sizeof positions);
    checked(measured_once(), READ);
}

static void work_read(const char *name, int expected)
{
    engine_make(exposure, strlen(exposure));
    checked(engine_read(name, strlen(name), positions), expected);
    memset(positions, 0, sizeof positions);
    checked(measured_read(name), expected);
    engine_drop();
}

int main(int count, char **words)
{
    const char *work = count > 1 ? words[1] : "";
    with_positions = count == 2;
    if (count > 3 || (count == 3 && strcmp(words[2], "plain") != 0))
        stop("usage: bench once|name|dropped|wild [plain]");
    if (strcmp(work, "once") == 0)
        work_once();
    else if (strcmp(work, "name") == 0)
        work_read(whole, READ);
    else if (strcmp(work, "dropped") == 0)
        work_read(dropped, NOT_READ);
    else if (strcmp(work, "wild") == 0)
        wild();
    else
        stop("usage: bench once|name|dropped|wild [plain]");
    return 0;
}
