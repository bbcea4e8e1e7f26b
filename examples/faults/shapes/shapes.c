/* Measures shapes. Each line has a kind and two sizes: `r 3 4` a rectangle, `t 3 4` a triangle,
   `s 5 0` a square, `e 3 4` an ellipse.

   Defect: the ellipse was added to the list of kinds, but not to the dispatch, so that its function
   stays null. */
#include <stdio.h>
#include <stdlib.h>
#include <string.h>

struct shape {
    int (*area)(int a, int b);
    int a, b;
};

static int times(int a, int b)
{
    int product = 0;
    for (; b > 0; b--)
        product += a;
    return product;
}

static int rectangle(int a, int b) { return times(a, b); }
static int triangle(int a, int b) { return times(a, b) >> 1; }
static int square(int a, int b) { return times(a, a) + b; }
#ifdef FIXED
static int ellipse(int a, int b) { return times(a, b) * 3; }
#endif

static struct shape *read_shape(const char *line)
{
    struct shape *s = malloc(sizeof *s);
    char *rest;
    s->a = (int)strtol(line + 1, &rest, 10);
    s->b = (int)strtol(rest, &rest, 10);
    switch (line[0]) {
    case 'r': s->area = rectangle; break;
    case 't': s->area = triangle; break;
    case 's': s->area = square; break;
#ifdef FIXED
    case 'e': s->area = ellipse; break;
#endif
    }
    return s;
}

int main(void)
{
    char line[32];
    int total = 0;
    while (fgets(line, sizeof line, stdin)) {
        if (!strchr("rtse", line[0])) {
            puts("no shape");
            continue;
        }
        struct shape *s = read_shape(line);
        int area = s->area(s->a, s->b);
        printf("%c %d\n", line[0], area);
        total += area;
        free(s);
    }
    printf("total %d\n", total);
    return 0;
}
