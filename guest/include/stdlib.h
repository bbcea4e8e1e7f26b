#ifndef GUEST_STDLIB_H
#define GUEST_STDLIB_H

#include <stddef.h>

#define EXIT_SUCCESS 0
#define EXIT_FAILURE 1

/* Each block comes from service 1000 and is guarded from its first to its last byte. Memory of a
   new block is zero. Places are never used again, and 4,096 blocks may be live. */
void *malloc(size_t length);
void *calloc(size_t count, size_t length);
/* Always moves the block. */
void *realloc(void *block, size_t length);
/* A place where no live block begins ends the run, as `abort` does. */
void free(void *block);

_Noreturn void exit(int code);
/* Ends the run as `crash-break`. */
_Noreturn void abort(void);

int atoi(const char *text);
/* Base 10 or 16; a number past the range wraps. */
long strtol(const char *text, char **end, int base);
unsigned long strtoul(const char *text, char **end, int base);
static inline int abs(int number) { return number < 0 ? -number : number; }

#endif
