/* Reads a configuration: `[section]` lines and `key = number` lines, and prints each section with the
   number of its keys and their sum.

   Defect: a key before the first section is counted in a section that does not exist (a null pointer). */
#include <stdio.h>
#include <stdlib.h>
#include <string.h>

#include "clearview.h"

struct section {
    struct section *next;
    char name[16];
    int keys, sum;
};

static struct section *first, *current;

static void begin_section(const char *name)
{
    struct section *s = malloc(sizeof *s);
    int i = 0;
    for (; i < 15 && name[i] && name[i] != ']'; i++)
        s->name[i] = name[i];
    s->name[i] = 0;
    s->keys = s->sum = 0;
    s->next = first;
    first = current = s;
}

static void add_key(const char *value)
{
#ifdef FIXED
    if (!current)
        return;
#endif
    current->keys++;
    current->sum += atoi(value);
}

int main(void)
{
    char line[64];
    int number = 0;
    while (fgets(line, sizeof line, stdin)) {
        number++;
        char *equals = strchr(line, '=');
        if (line[0] == '[')
            begin_section(line + 1);
        else if (equals)
            add_key(equals + 1);
    }
    for (struct section *s = first; s; s = s->next)
        printf("%s %d %d\n", s->name, s->keys, s->sum);
    printf("%d lines\n", number);
    return 0;
}
