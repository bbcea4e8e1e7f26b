/* Unpacks text in which `<DL` stands for L bytes that came D bytes before, D and L single letters with
   a for 1; other bytes stand for themselves.

   Defect: the distance is not compared with what is there already. The bytes before the block are read
   and printed: loads are not guarded. */
#include <stdio.h>
#include <stdlib.h>
#include <string.h>

#include "clearview.h"

enum { ROOM = 512 };

int main(void)
{
    char *at = read_all(0);
    char *out = malloc(ROOM);
    int length = 0;
    while (*at) {
        if (*at != '<' || at[1] < 'a' || at[2] < 'a') {
            if (length < ROOM)
                out[length++] = *at;
            at++;
            continue;
        }
        int distance = at[1] - 'a' + 1, count = at[2] - 'a' + 1;
#ifdef FIXED
        if (distance > length) {
            puts("bad distance");
            return 1;
        }
#endif
        for (; count > 0 && length < ROOM; count--, length++)
            out[length] = out[length - distance];
        at += 3;
    }
    write_output(out, (size_t)length);
    printf("\n%d bytes\n", length);
    return 0;
}
