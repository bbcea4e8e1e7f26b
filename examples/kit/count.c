/* Counts the words of the input, writes the count and a line feed, and exits with it. */
#include <stdio.h>

#include "clearview.h"
#include "words.h"

int main(void)
{
    size_t length;
    const char *text = read_all(&length);
    unsigned int words = count_words(text, length);
    printf("%u\n", words);
    return (int)words;
}
