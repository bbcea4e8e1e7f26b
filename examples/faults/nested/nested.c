/* Reads nested lists of numbers, `[1,[2,3],4]`, one on each line, and prints the sum and the depth.

   Defect: a byte that begins no value is passed on to the function that reads a value, without a step
   forward: an endless recursion. */
#include <stdio.h>
#include <stdlib.h>

#include "clearview.h"

static const char *at;
static int deepest;

static int value(int depth);

static int list(int depth)
{
    int sum = 0;
    at++;
    while (*at && *at != ']' && *at != '\n') {
        sum += value(depth + 1);
        if (*at == ',')
            at++;
    }
    if (*at == ']')
        at++;
    return sum;
}

static int value(int depth)
{
    if (depth > deepest)
        deepest = depth;
    if (*at == '[')
        return list(depth);
    if (*at >= '0' && *at <= '9') {
        char *end;
        int number = (int)strtol(at, &end, 10);
        at = end;
        return number;
    }
#ifdef FIXED
    at++;
    return 0;
#else
    return value(depth);
#endif
}

int main(void)
{
    at = read_all(0);
    while (*at) {
        deepest = 0;
        int sum = value(1);
        printf("sum %d depth %d\n", sum, deepest);
        while (*at && *at++ != '\n')
            ;
    }
    puts("end");
    return 0;
}
