/* Converts lengths and weights: `12 k` is 12 kilometres in metres, `3 p` three pounds in grams.

   Defect: for a letter that no unit has, the pointer to the unit is never set. */
#include <stdio.h>
#include <stdlib.h>

struct unit {
    char letter;
    int factor;
    const char *base;
};

static const struct unit units[] = {
    { 'k', 1000, "m" }, { 'm', 1609, "m" }, { 'i', 25, "mm" }, { 'p', 454, "g" }, { 't', 1000, "kg" },
};

static int times(int a, int b)
{
    int product = 0;
    for (; b > 0; b >>= 1, a += a)
        if (b & 1)
            product += a;
    return product;
}

static void convert(const char *line)
{
    const struct unit *unit;
#ifdef FIXED
    unit = 0;
#endif
    char *rest;
    int number = (int)strtol(line, &rest, 10);
    for (unsigned int i = 0; i < sizeof units / sizeof units[0]; i++)
        if (units[i].letter == rest[1])
            unit = &units[i];
#ifdef FIXED
    if (!unit) {
        puts("no such unit");
        return;
    }
#endif
    printf("%d %s\n", times(number, unit->factor), unit->base);
}

int main(void)
{
    char line[32];
    int lines = 0;
    while (fgets(line, sizeof line, stdin)) {
        convert(line);
        lines++;
    }
    printf("%d lines\n", lines);
    return 0;
}
