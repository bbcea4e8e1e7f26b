/* Unpacks runs: a digit and a byte stand for as many of the byte, `3a` is `aaa`; other bytes stand for
   themselves.

   Defect: for a run of 0 the place in the input is not moved on: the program hangs. */
#include <stdio.h>
#include <stdlib.h>
#include <string.h>

#include "clearview.h"

int main(void)
{
    size_t size;
    char *text = read_all(&size), *at = text, *end = text + size;
    char out[256];
    int length = 0;
    while (at < end) {
        if (*at < '0' || *at > '9') {
            if (length < 255)
                out[length++] = *at;
            at++;
            continue;
        }
        int count = *at - '0';
        while (count > 0 && length < 255) {
            out[length++] = at[1];
            if (--count == 0)
                at += 2;
        }
#ifdef FIXED
        if (*at == '0')
            at += 2;
        if (length == 255)
            break;
#endif
    }
    out[length] = 0;
    printf("%s\n%d bytes\n", out, length);
    return 0;
}
