/* A small C library over the five services. What a program does not call is not linked. */
#include <ctype.h>
#include <stdio.h>
#include <stdlib.h>
#include <string.h>

#include "clearview.h"

/* A loop that copies stays a loop, and is no call of `memcpy` by itself. */
#pragma GCC optimize("no-tree-loop-distribute-patterns")

/* ---- blocks ---- */

enum { NO_SERVICE = -38, LINUX_BREAK = 214, WHOLE_INPUT = 65536 };

/* Where the machine's heap is missing, as under a Linux emulator, blocks come from the program
   break, without guards: so the same file runs there. */
static void *block_of_break(size_t length)
{
    static unsigned int next, top;
    if (next == 0)
        next = top = ((unsigned int)service(LINUX_BREAK, 0, 0, 0) + 15) & ~15u;
    unsigned int place = next;
    next += ((length + 15) & ~15u) + 16;
    if (next > top) {
        top = (unsigned int)service(LINUX_BREAK, next, 0, 0);
        if (top < next)
            return 0;
    }
    return (void *)place;
}

void *malloc(size_t length)
{
    int place = service(SERVICE_ALLOC, length, 0, 0);
    return place == NO_SERVICE ? block_of_break(length) : (void *)place;
}

void *calloc(size_t count, size_t length)
{
    if (length != 0 && count > 0x7fffffff / length)
        return 0;
    return malloc(count * length);
}

/* The old block's size is not known. Its place is below the new one's, so that as many bytes as the
   new block has can be read from it. */
void *realloc(void *block, size_t length)
{
    void *other = malloc(length);
    if (block && other) {
        memcpy(other, block, length);
        free(block);
    }
    return other;
}

void free(void *block)
{
    if (block) {
        int answer = service(SERVICE_FREE, (unsigned int)block, 0, 0);
        if (answer != 0 && answer != NO_SERVICE)
            abort();
    }
}

/* ---- ends ---- */

_Noreturn void exit(int code)
{
    service(SERVICE_EXIT, (unsigned int)code, 0, 0);
    __builtin_unreachable();
}

_Noreturn void abort(void)
{
    __builtin_trap();
}

/* ---- bytes ---- */

void *memcpy(void *restrict to, const void *restrict from, size_t length)
{
    unsigned char *t = to;
    const unsigned char *f = from;
    if ((((unsigned int)t | (unsigned int)f) & 3) == 0)
        for (; length >= 4; length -= 4, t += 4, f += 4)
            *(unsigned int *)t = *(const unsigned int *)f;
    while (length-- > 0)
        *t++ = *f++;
    return to;
}

void *memmove(void *to, const void *from, size_t length)
{
    unsigned char *t = to;
    const unsigned char *f = from;
    if (t <= f)
        while (length-- > 0)
            *t++ = *f++;
    else
        while (length-- > 0)
            t[length] = f[length];
    return to;
}

void *memset(void *to, int byte, size_t length)
{
    unsigned char *t = to;
    while (length-- > 0)
        *t++ = (unsigned char)byte;
    return to;
}

int memcmp(const void *a, const void *b, size_t length)
{
    const unsigned char *x = a, *y = b;
    for (; length > 0; length--, x++, y++)
        if (*x != *y)
            return *x - *y;
    return 0;
}

void *memchr(const void *bytes, int byte, size_t length)
{
    const unsigned char *at = bytes;
    for (; length > 0; length--, at++)
        if (*at == (unsigned char)byte)
            return (void *)at;
    return 0;
}

/* ---- strings ---- */

size_t strlen(const char *text)
{
    const char *end = text;
    while (*end)
        end++;
    return (size_t)(end - text);
}

int strcmp(const char *a, const char *b)
{
    while (*a && *a == *b)
        a++, b++;
    return (unsigned char)*a - (unsigned char)*b;
}

int strncmp(const char *a, const char *b, size_t length)
{
    for (; length > 0 && *a && *a == *b; length--)
        a++, b++;
    return length == 0 ? 0 : (unsigned char)*a - (unsigned char)*b;
}

char *strcpy(char *restrict to, const char *restrict from)
{
    char *t = to;
    while ((*t++ = *from++))
        ;
    return to;
}

char *strncpy(char *restrict to, const char *restrict from, size_t length)
{
    char *t = to;
    for (; length > 0 && *from; length--)
        *t++ = *from++;
    for (; length > 0; length--)
        *t++ = 0;
    return to;
}

char *strcat(char *restrict to, const char *restrict from)
{
    strcpy(to + strlen(to), from);
    return to;
}

char *strchr(const char *text, int byte)
{
    for (;; text++) {
        if (*text == (char)byte)
            return (char *)text;
        if (!*text)
            return 0;
    }
}

char *strrchr(const char *text, int byte)
{
    const char *found = 0;
    for (;; text++) {
        if (*text == (char)byte)
            found = text;
        if (!*text)
            return (char *)found;
    }
}

char *strstr(const char *text, const char *part)
{
    size_t length = strlen(part);
    for (;; text++) {
        if (strncmp(text, part, length) == 0)
            return (char *)text;
        if (!*text)
            return 0;
    }
}

char *strdup(const char *text)
{
    size_t length = strlen(text) + 1;
    char *copy = malloc(length);
    return copy ? memcpy(copy, text, length) : 0;
}

/* ---- numbers ---- */

static int digit_of(int c)
{
    return isdigit(c) ? c - '0' : isalpha(c) ? tolower(c) - 'a' + 10 : 99;
}

unsigned long strtoul(const char *text, char **end, int base)
{
    const char *at = text;
    while (isspace((unsigned char)*at))
        at++;
    int minus = *at == '-';
    if (*at == '-' || *at == '+')
        at++;
    if ((base == 0 || base == 16) && at[0] == '0' && (at[1] == 'x' || at[1] == 'X') && isxdigit((unsigned char)at[2])) {
        base = 16;
        at += 2;
    }
    unsigned long number = 0;
    const char *first = at;
    for (; digit_of((unsigned char)*at) < (base == 16 ? 16 : 10); at++) {
        unsigned long eight = number << 3;
        number = (base == 16 ? eight << 1 : eight + (number << 1)) + (unsigned long)digit_of((unsigned char)*at);
    }
    if (end)
        *end = (char *)(at == first ? text : at);
    return minus ? -number : number;
}

long strtol(const char *text, char **end, int base)
{
    return (long)strtoul(text, end, base);
}

int atoi(const char *text)
{
    return (int)strtol(text, 0, 10);
}

/* ---- input ---- */

char *read_all(size_t *length)
{
    char *whole = malloc(WHOLE_INPUT);
    if (!whole)
        return 0;
    size_t count = 0;
    for (;;) {
        int taken = read_input(whole + count, WHOLE_INPUT - count);
        if (taken <= 0)
            break;
        count += (size_t)taken;
    }
    char *text = malloc(count + 1);
    if (text) {
        memcpy(text, whole, count);
        text[count] = 0;
        if (length)
            *length = count;
    }
    free(whole);
    return text;
}

int getchar(void)
{
    unsigned char c;
    return read_input(&c, 1) == 1 ? c : EOF;
}

char *fgets(char *restrict to, int length, FILE *restrict file)
{
    (void)file;
    int at = 0;
    while (at + 1 < length) {
        int c = getchar();
        if (c == EOF)
            break;
        to[at++] = (char)c;
        if (c == '\n')
            break;
    }
    if (at == 0)
        return 0;
    to[at] = 0;
    return to;
}

/* ---- output ---- */

FILE guest_files[3] = { { 0 }, { 1 }, { 2 } };

/* Where text goes: to the output, a piece at a time, or to `to`, where `room` bytes are left. */
struct sink {
    char *to;
    size_t room;
    int printed;
    unsigned int held;
    char piece[64];
};

static void flush(struct sink *sink)
{
    write_output(sink->piece, sink->held);
    sink->held = 0;
}

static void put(struct sink *sink, char c)
{
    sink->printed++;
    if (!sink->to) {
        sink->piece[sink->held++] = c;
        if (sink->held == sizeof sink->piece)
            flush(sink);
    } else if (sink->room > 1) {
        *sink->to++ = c;
        sink->room--;
    }
}

/* Flags of one field of a format. */
struct field {
    int left, zeros, width, precision;
};

static void put_padded(struct sink *sink, const struct field *field, const char *text, int length, int sign)
{
    int padding = field->width - length - (sign != 0);
    if (sign && field->zeros)
        put(sink, '-');
    if (!field->left)
        for (int i = 0; i < padding; i++)
            put(sink, field->zeros ? '0' : ' ');
    if (sign && !field->zeros)
        put(sink, '-');
    for (int i = 0; i < length; i++)
        put(sink, text[i]);
    if (field->left)
        for (int i = 0; i < padding; i++)
            put(sink, ' ');
}

/* The decimal digits of a number, by subtraction: the machine has no division. */
static int decimal(char *to, unsigned int number)
{
    static const unsigned int powers[] = { 1000000000, 100000000, 10000000, 1000000, 100000, 10000, 1000, 100, 10, 1 };
    int length = 0;
    for (int i = 0; i < 10; i++) {
        char digit = '0';
        for (; number >= powers[i]; number -= powers[i])
            digit++;
        if (length > 0 || digit != '0' || i == 9)
            to[length++] = digit;
    }
    return length;
}

static int hexadecimal(char *to, unsigned int number, char ten)
{
    int length = 0;
    for (int shift = 28; shift >= 0; shift -= 4) {
        unsigned int digit = number >> shift & 15;
        if (length > 0 || digit != 0 || shift == 0)
            to[length++] = (char)(digit < 10 ? '0' + digit : ten + digit - 10);
    }
    return length;
}

static void put_number(struct sink *sink, const struct field *field, char kind, unsigned int number)
{
    char digits[10];
    int minus = (kind == 'd' || kind == 'i') && (int)number < 0;
    int length;
    if (kind == 'x' || kind == 'X' || kind == 'p')
        length = hexadecimal(digits, number, kind == 'X' ? 'A' : 'a');
    else
        length = decimal(digits, minus ? -number : number);
    put_padded(sink, field, digits, length, minus);
}

static void put_string(struct sink *sink, struct field *field, const char *text)
{
    int length = 0;
    while ((field->precision < 0 || length < field->precision) && text[length])
        length++;
    field->zeros = 0;
    put_padded(sink, field, text, length, 0);
}

/* A count in a format: digits, or `*` for the next value. */
static const char *count_of(const char *format, va_list *values, int *count)
{
    if (*format == '*') {
        *count = va_arg(*values, int);
        return format + 1;
    }
    for (*count = 0; isdigit((unsigned char)*format); format++)
        *count = (*count << 3) + (*count << 1) + (*format - '0');
    return format;
}

static void print(struct sink *sink, const char *format, va_list *values)
{
    for (; *format; format++) {
        if (*format != '%') {
            put(sink, *format);
            continue;
        }
        struct field field = { 0, 0, 0, -1 };
        for (format++; *format == '-' || *format == '0'; format++)
            *(*format == '-' ? &field.left : &field.zeros) = 1;
        format = count_of(format, values, &field.width);
        if (*format == '.')
            format = count_of(format + 1, values, &field.precision);
        while (*format == 'l' || *format == 'h' || *format == 'z')
            format++;
        if (*format == 's') {
            put_string(sink, &field, va_arg(*values, const char *));
        } else if (*format == 'c') {
            char c = (char)va_arg(*values, int);
            put_padded(sink, &field, &c, 1, 0);
        } else if (*format == '%' || !*format) {
            put(sink, '%');
        } else {
            put_number(sink, &field, *format, va_arg(*values, unsigned int));
        }
        if (!*format)
            break;
    }
}

static int print_out(const char *format, va_list *values)
{
    struct sink sink;
    sink.to = 0;
    sink.printed = 0;
    sink.held = 0;
    print(&sink, format, values);
    flush(&sink);
    return sink.printed;
}

int printf(const char *restrict format, ...)
{
    va_list values;
    va_start(values, format);
    int printed = print_out(format, &values);
    va_end(values);
    return printed;
}

int fprintf(FILE *restrict file, const char *restrict format, ...)
{
    (void)file;
    va_list values;
    va_start(values, format);
    int printed = print_out(format, &values);
    va_end(values);
    return printed;
}

int vsnprintf(char *restrict to, size_t length, const char *restrict format, va_list values)
{
    char none[1];
    struct sink sink;
    sink.to = length > 0 ? to : none;
    sink.room = length > 0 ? length : 1;
    sink.printed = 0;
    va_list copy;
    va_copy(copy, values);
    print(&sink, format, &copy);
    va_end(copy);
    *sink.to = 0;
    return sink.printed;
}

int snprintf(char *restrict to, size_t length, const char *restrict format, ...)
{
    va_list values;
    va_start(values, format);
    int printed = vsnprintf(to, length, format, values);
    va_end(values);
    return printed;
}

int fputs(const char *restrict text, FILE *restrict file)
{
    (void)file;
    write_output(text, strlen(text));
    return 0;
}

int puts(const char *text)
{
    write_output(text, strlen(text));
    write_output("\n", 1);
    return 0;
}

int fputc(int byte, FILE *file)
{
    (void)file;
    char c = (char)byte;
    write_output(&c, 1);
    return (unsigned char)c;
}

int putchar(int byte)
{
    return fputc(byte, stdout);
}
