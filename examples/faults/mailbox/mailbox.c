/* A mailbox in a ring of eight places of a heap block: `put text` keeps a message, `get` prints the
   oldest one, `count` tells how many wait. A full ring refuses.

   Defect: the ring goes round one place too late, so that the ninth message is stored behind the block. */
#include <stdio.h>
#include <stdlib.h>
#include <string.h>

#include "clearview.h"

enum { PLACES = 8, LENGTH = 16 };

static char *ring;
static unsigned int head, tail, waiting;

static unsigned int next(unsigned int place)
{
#ifdef FIXED
    return place + 1 == PLACES ? 0 : place + 1;
#else
    return place == PLACES ? 0 : place + 1;
#endif
}

static void put(const char *text)
{
    if (waiting == PLACES) {
        puts("full");
        return;
    }
    char *place = ring + head * LENGTH;
    int i = 0;
    for (; i < LENGTH - 1 && text[i] && text[i] != '\n'; i++)
        place[i] = text[i];
    place[i] = 0;
    head = next(head);
    waiting++;
}

static void get(void)
{
    if (waiting == 0) {
        puts("empty");
        return;
    }
    printf("%s\n", ring + tail * LENGTH);
    tail = next(tail);
    waiting--;
}

int main(void)
{
    char line[48];
    ring = malloc(PLACES * LENGTH);
    while (fgets(line, sizeof line, stdin)) {
        if (line[0] == 'p')
            put(line + 4);
        else if (line[0] == 'g')
            get();
        else
            printf("%u waiting\n", waiting);
    }
    puts("end");
    return 0;
}
