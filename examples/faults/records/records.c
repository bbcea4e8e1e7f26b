/* Reads records of a kind, a length and as many bytes, and prints what they say: names, numbers and
   notes. A record's bytes are kept in a block of the heap while it is printed.

   Defect: the block has 24 bytes, and the length is not compared with them. */
#include <stdio.h>
#include <stdlib.h>
#include <string.h>

#include "clearview.h"

enum { NAME = 1, NUMBER = 2, NOTE = 3, ROOM = 24 };

static void show(int kind, const char *bytes, unsigned int length)
{
    if (kind == NAME)
        printf("name %.*s\n", (int)length, bytes);
    else if (kind == NUMBER) {
        unsigned int value = 0;
        for (unsigned int i = 0; i < length; i++)
            value = value << 8 | (unsigned char)bytes[i];
        printf("number %u\n", value);
    } else
        printf("note of %u\n", length);
}

static void record(int kind, const char *from, unsigned int length)
{
    char *bytes = malloc(ROOM);
#ifdef FIXED
    if (length > ROOM)
        length = ROOM;
#endif
    memcpy(bytes, from, length);
    show(kind, bytes, length);
    free(bytes);
}

int main(void)
{
    size_t size;
    char *text = read_all(&size), *at = text, *end = text + size;
    int count = 0;
    while (end - at >= 2) {
        unsigned int length = (unsigned char)at[1];
        if (length > (unsigned int)(end - at - 2))
            break;
        record(at[0], at + 2, length);
        at += 2 + length;
        count++;
    }
    printf("%d records\n", count);
    return 0;
}
