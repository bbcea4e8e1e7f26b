/* A table of symbols: `def x 5` defines one, `use x` prints it, `sum x y` prints a sum.

   Defect: `sum` does not ask whether its second symbol was found, and reads through a null pointer. */
#include <stdio.h>
#include <stdlib.h>
#include <string.h>

#include "clearview.h"

struct symbol {
    char name[8];
    int value;
};

static struct symbol *symbols[16];
static int count;

static struct symbol *find(const char *name, int length)
{
    for (int i = 0; i < count; i++)
        if (strncmp(symbols[i]->name, name, (size_t)length) == 0 && symbols[i]->name[length] == 0)
            return symbols[i];
    return 0;
}

static int length_of(const char *name)
{
    int length = 0;
    while (name[length] > ' ' && length < 7)
        length++;
    return length;
}

static void define(const char *at)
{
    int length = length_of(at);
    struct symbol *s = find(at, length);
    if (!s && count < 16) {
        s = symbols[count++] = malloc(sizeof *s);
        memcpy(s->name, at, (size_t)length);
    }
    if (s)
        s->value = atoi(at + length);
}

static void sum(const char *at)
{
    int length = length_of(at);
    struct symbol *a = find(at, length);
    if (!a) {
        puts("undefined");
        return;
    }
    at += length + 1;
    struct symbol *b = find(at, length_of(at));
#ifdef FIXED
    if (!b) {
        puts("undefined");
        return;
    }
#endif
    printf("%d\n", a->value + b->value);
}

int main(void)
{
    char line[48];
    while (fgets(line, sizeof line, stdin)) {
        if (strncmp(line, "def ", 4) == 0)
            define(line + 4);
        else if (strncmp(line, "sum ", 4) == 0)
            sum(line + 4);
        else if (strncmp(line, "use ", 4) == 0) {
            struct symbol *s = find(line + 4, length_of(line + 4));
            if (s)
                printf("%s is %d\n", s->name, s->value);
            else
                puts("undefined");
        }
    }
    printf("%d symbols\n", count);
    return 0;
}
