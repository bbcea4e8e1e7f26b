/* A reader of packets: two bytes of length, which counts the four bytes of the head too, one byte of
   kind, one of checksum, then the data. It prints each packet's kind and the sum of its data.

   Defect: the length is only compared with the greatest one, so that one below 4 makes a negative
   number of bytes, which `memcpy` takes for a large one. */
#include <stdio.h>
#include <stdlib.h>
#include <string.h>

#include "clearview.h"

enum { HEAD = 4, MOST = 60 };

static int packet(const unsigned char *at, int length)
{
    unsigned char data[MOST];
    int sum = 0;
    memcpy(data, at + HEAD, (size_t)(length - HEAD));
    for (int i = 0; i < length - HEAD; i++)
        sum += data[i];
    printf("kind %d sum %d\n", at[2], sum);
    return (sum & 255) == at[3];
}

int main(void)
{
    size_t size;
    unsigned char *text = (unsigned char *)read_all(&size), *at = text, *end = text + size;
    int good = 0, bad = 0;
    while (end - at >= HEAD) {
        int length = at[0] << 8 | at[1];
        if (length > MOST || length > end - at)
            break;
#ifdef FIXED
        if (length < HEAD)
            break;
#endif
        if (packet(at, length))
            good++;
        else
            bad++;
        at += length;
    }
    printf("%d good %d bad\n", good, bad);
    return 0;
}
