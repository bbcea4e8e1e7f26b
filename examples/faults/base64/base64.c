/* Decodes base64: each line of the input is decoded and printed with its length.

   Defect: the byte is taken as a signed number, so that one above 127 is an index before the table.
   What lies there is the text that was decoded last, and it can be read. */
#include <stdio.h>
#include <stdlib.h>
#include <string.h>

#include "clearview.h"

static struct {
    char text[128];
    signed char values[128];
} decoder;

static void make_values(void)
{
    const char *digits = "ABCDEFGHIJKLMNOPQRSTUVWXYZabcdefghijklmnopqrstuvwxyz0123456789+/";
    memset(decoder.values, -1, sizeof decoder.values);
    for (int i = 0; i < 64; i++)
        decoder.values[(int)digits[i]] = (signed char)i;
}

static int value_of(signed char c)
{
#ifdef FIXED
    if (c < 0)
        return -1;
#endif
    return decoder.values[c];
}

static int decode(const char *from, char *to)
{
    unsigned int bits = 0;
    int held = 0, length = 0;
    for (; *from && *from != '\n' && *from != '='; from++) {
        int value = value_of((signed char)*from);
        if (value < 0)
            continue;
        bits = bits << 6 | (unsigned int)value;
        held += 6;
        if (held >= 8) {
            held -= 8;
            to[length++] = (char)(bits >> held);
        }
    }
    to[length] = 0;
    return length;
}

int main(void)
{
    char line[80];
    make_values();
    while (fgets(line, sizeof line, stdin)) {
        int length = decode(line, decoder.text);
        printf("%s %d\n", decoder.text, length);
    }
    return 0;
}
