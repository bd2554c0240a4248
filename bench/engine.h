/* What the bench asks of an engine: ours, PCRE2 or RE2. Expressions are in our syntax, with nothing but literals,
   bars, stars and parentheses. */
#ifndef ENGINE_H
#define ENGINE_H

#include <stddef.h>

#ifdef __cplusplus
extern "C" {
#endif

enum { LEAVES_MOST = 120, NAME_MOST = 255, TRANSLATED_MOST = 4096 };
enum { READ = 1, NOT_READ = 0, GAVE_UP = -1 };

extern const char engine_name[];

/* Takes in the expression; stops the program if that fails. */
void engine_make(const char *expression, size_t length);

/* Reads a name; if it is read, positions[i] is the leaf, from 1, on which byte i stands, as far as the engine can say. */
int engine_read(const char *name, size_t length, unsigned char *positions);

/* Drops what engine_make took in. */
void engine_drop(void);

/* The expression for PCRE2 and RE2. Where positions are wanted it has a group around each leaf, so that a group's
   number is a position: how they can tell leaves apart. `to` has TRANSLATED_MOST bytes. Gives the length. */
size_t translated(const char *expression, size_t length, char *to);

#ifdef __cplusplus
}
#endif

#endif
