/* Calls what the kit's library has, and prints what it answers. A host's C library gives the same text:
   library.txt is what glibc printed. */
#include <assert.h>
#include <ctype.h>
#include <stdio.h>
#include <stdlib.h>
#include <string.h>

#include "clearview.h"

static void bytes_and_strings(void)
{
    char a[16] = "abcdef", b[16];
    memset(b, 'z', sizeof b);
    memcpy(b, a, 7);
    memmove(a + 2, a, 5);
    printf("%s %s %c\n", a, b, b[8]);
    strcpy(b, "one");
    strcat(b, " two");
    printf("%s %u %d %d\n", b, (unsigned)strlen(b), strcmp("a", "b") < 0, strncmp("abc", "abd", 2));
    printf("%s %s %s %d\n", strchr(b, 'e'), strrchr(b, ' '), strstr(b, "tw"), strstr(b, "x") == 0);
    printf("%d %d %s\n", memcmp("abc", "abd", 3) < 0, memchr("abc", 'd', 3) == 0, (char *)memchr("abc", 'b', 3));
    memset(b, 'q', sizeof b);
    strncpy(b, "ab", 4);
    printf("%d %d %c\n", b[2], b[3], b[4]);
}

static void numbers(void)
{
    char to[8], *end;
    printf("%d %d %u %x %X %i\n", 0, -2147483647 - 1, 4294967295u, 48879, 48879, 77);
    printf("[%5d] [%-5d] [%05d] [%5s] [%-5s] [%.2s] [%*d] [%c] [%%]\n", -42, -42, -42, "ab", "ab", "abc", 4, 7, 'x');
    printf("%ld %zu %hd\n", 1l, sizeof(int), (short)3);
    printf("%d [%s]\n", snprintf(to, sizeof to, "%d-%s", 1234, "abcdef"), to);
    long number = strtol("99 rest", &end, 10);
    printf("%d %d %ld %ld [%s]\n", atoi(" 42x"), atoi("-7"), strtol("0x1F", 0, 16), number, end);
    printf("%d %d %d\n", 1000000 / 7, -1000 % 7, 12345 * 6789);
    printf("%d %c %d\n", abs(-5), toupper('a'), (isspace('\t') != 0) + (isalnum('_') != 0));
}

static void blocks(const char *text)
{
    char *copy = strdup(text);
    int *many = calloc(4, sizeof *many);
    many[3] = 9;
    many = realloc(many, 8 * sizeof *many);
    many[7] = 1;
    printf("%s %d %d\n", copy, many[3], many[0]);
    free(many);
    free(copy);
    free(0);
}

int main(void)
{
    char line[16];
    printf("%s", fgets(line, sizeof line, stdin));
    printf("%c\n", getchar());
    size_t length;
    char *rest = read_all(&length);
    printf("%u [%s]\n", (unsigned)length, rest);
    bytes_and_strings();
    numbers();
    blocks(rest);
    fputs("fputs", stdout);
    fprintf(stderr, " fprintf %d", 1);
    putchar('\n');
    assert(length > 0);
    puts("end");
    return 3;
}
