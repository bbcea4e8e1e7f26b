/* A store of named parcels. `put a text` keeps a text under a letter, `same b a` lets b name the
   parcel of a too, `drop a` takes a name away, `list` tells what is there.

   Defect: two names share one block, and each `drop` frees it. The kit's `free` ends the run where no
   block lives at the place. */
#include <stdio.h>
#include <stdlib.h>
#include <string.h>

#include "clearview.h"

struct parcel {
    int names;
    char text[28];
};

static struct parcel *shelf[26];

static void put(int name, const char *text)
{
    struct parcel *p = malloc(sizeof *p);
    p->names = 1;
    strncpy(p->text, text, sizeof p->text - 1);
    shelf[name] = p;
}

static void drop(int name)
{
    struct parcel *p = shelf[name];
    if (!p)
        return;
    shelf[name] = 0;
#ifdef FIXED
    if (--p->names > 0)
        return;
#endif
    free(p);
}

static void list(void)
{
    for (int i = 0; i < 26; i++)
        if (shelf[i])
            printf("%c %s\n", 'a' + i, shelf[i]->text);
}

int main(void)
{
    char line[64];
    int count = 0;
    while (fgets(line, sizeof line, stdin)) {
        line[strlen(line) - 1] = 0;
        if (strncmp(line, "put ", 4) == 0)
            put((line[4] - 'a') & 15, line + 6);
        else if (strncmp(line, "same ", 5) == 0) {
            struct parcel *p = shelf[(line[7] - 'a') & 15];
            shelf[(line[5] - 'a') & 15] = p;
            if (p)
                p->names++;
        } else if (strncmp(line, "drop ", 5) == 0)
            drop((line[5] - 'a') & 15);
        else
            list();
        count++;
    }
    printf("%d lines\n", count);
    return 0;
}
