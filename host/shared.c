/* shared LIBRARY: loads the shared library while running and makes every call of the header through it, on P5 of document 01. */
#include "satchelram.h"

#include <dlfcn.h>
#include <stdio.h>
#include <string.h>

static void *library;
static int faults;

/* The call of a name, as a pointer to a function; ISO C has no cast for it. */
static void find(const char *name, void *call, size_t size)
{
    void *found = dlsym(library, name);
    if (found == NULL) {
        fprintf(stderr, "shared: no %s\n", name);
        faults++;
    }
    memcpy(call, &found, size);
}

static void expect(const char *what, uint64_t answer, uint64_t expected)
{
    if (answer != expected) {
        fprintf(stderr, "shared: %s: %lu, expected %lu\n", what, (unsigned long)answer, (unsigned long)expected);
        faults++;
    }
}

int main(int argc, char **argv)
{
    static uint8_t sheet[SATCHELRAM_SHEET_MOST], mapping[2], work[SATCHELRAM_WORK_SIZE(2)];
    static const uint8_t text[] = {'a', '*', 'a', '*'}, name[] = {'a', 'a'};
    uint64_t (*version)(void);
    uint64_t (*make)(const uint8_t *, size_t, uint8_t *, size_t);
    uint64_t (*accept)(const uint8_t *, size_t, const uint8_t *, size_t, uint8_t *, size_t);
    uint64_t (*first)(const uint8_t *, size_t, const uint8_t *, size_t, uint8_t *, size_t, uint8_t *, size_t);
    uint64_t (*next)(const uint8_t *, size_t, const uint8_t *, size_t, uint8_t *, size_t, uint8_t *, size_t);
    uint64_t (*check)(const uint8_t *, size_t, const uint8_t *, size_t, const uint8_t *, size_t, uint8_t *, size_t);
    library = argc == 2 ? dlopen(argv[1], RTLD_NOW) : NULL;
    if (library == NULL) {
        fprintf(stderr, "shared: %s\n", argc == 2 ? dlerror() : "usage: shared LIBRARY");
        return 1;
    }
    find("satchelram_version", &version, sizeof version);
    find("satchelram_sheet", &make, sizeof make);
    find("satchelram_accept", &accept, sizeof accept);
    find("satchelram_first", &first, sizeof first);
    find("satchelram_next", &next, sizeof next);
    find("satchelram_check", &check, sizeof check);
    if (faults != 0)
        return 1;
    expect("version", version(), SATCHELRAM_VERSION_NUMBER);
    expect("sheet", make(text, sizeof text, sheet, sizeof sheet), 256 * 10); /* 3 + 2 characters + 5 nodes */
    expect("accept", accept(sheet, 10, name, 2, work, sizeof work), 0);
    expect("first", first(sheet, 10, name, 2, mapping, 2, work, sizeof work), 0);
    expect("1,1", mapping[0] * 10u + mapping[1], 11);
    expect("next", next(sheet, 10, name, 2, mapping, 2, work, sizeof work), 0);
    expect("1,2", mapping[0] * 10u + mapping[1], 12);
    expect("next", next(sheet, 10, name, 2, mapping, 2, work, sizeof work), 0);
    expect("2,2", mapping[0] * 10u + mapping[1], 22);
    expect("check", check(sheet, 10, name, 2, mapping, 2, work, sizeof work), 0);
    expect("no more", next(sheet, 10, name, 2, mapping, 2, work, sizeof work), 1);
    return faults != 0;
}
