#ifndef GUEST_STDIO_H
#define GUEST_STDIO_H

#include <stdarg.h>
#include <stddef.h>

#define EOF (-1)

/* The input, and the output twice: what goes to `stderr` goes to the output too. Nothing is held
   back: each call writes what it prints, so that it is there when the run fails later. */
struct guest_file { int number; };
typedef const struct guest_file FILE;
extern FILE guest_files[];
#define stdin (&guest_files[0])
#define stdout (&guest_files[1])
#define stderr (&guest_files[2])

/* %d %i %u %x %X %c %s %p %%, with `-`, `0`, a width, a precision (of a string: the most bytes) and
   either as `*`; the length letters h, l and z are read and make no difference. */
int printf(const char *restrict format, ...) __attribute__((format(printf, 1, 2)));
int fprintf(FILE *restrict file, const char *restrict format, ...) __attribute__((format(printf, 2, 3)));
int snprintf(char *restrict to, size_t length, const char *restrict format, ...)
    __attribute__((format(printf, 3, 4)));
int vsnprintf(char *restrict to, size_t length, const char *restrict format, va_list values);
int puts(const char *text);
int fputs(const char *restrict text, FILE *restrict file);
int putchar(int byte);
int fputc(int byte, FILE *file);
int getchar(void);
char *fgets(char *restrict to, int length, FILE *restrict file);

#endif
