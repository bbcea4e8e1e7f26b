#include <stddef.h>

/* The number of words, which blanks, tabs and line feeds part. */
unsigned int count_words(const char *text, size_t length);
