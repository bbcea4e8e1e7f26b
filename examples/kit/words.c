#include "words.h"

#include <ctype.h>

unsigned int count_words(const char *text, size_t length)
{
    unsigned int words = 0;
    int inside = 0;
    for (size_t i = 0; i < length; i++) {
        int blank = isspace((unsigned char)text[i]);
        words += !blank && !inside;
        inside = !blank;
    }
    return words;
}
