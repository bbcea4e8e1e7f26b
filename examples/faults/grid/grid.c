/* A drawing board in a block of the heap: `size 8 4` makes it, `dot 3 2` sets a point, `line 2` a whole
   row, `show` prints it.

   Defect: the row of a point is not compared with the height. */
#include <stdio.h>
#include <stdlib.h>
#include <string.h>

static char *board;
static int width, height;

static void make(int w, int h)
{
    width = w > 0 && w < 32 ? w : 8;
    height = h > 0 && h < 16 ? h : 4;
    free(board);
    board = malloc((size_t)(width * height));
    memset(board, '.', (size_t)(width * height));
}

static void dot(int x, int y)
{
    if (x < 0 || x >= width || y < 0)
        return;
#ifdef FIXED
    if (y >= height)
        return;
#endif
    board[y * width + x] = '#';
}

static void show(void)
{
    for (int y = 0; y < height; y++)
        printf("%.*s\n", width, board + y * width);
}

int main(void)
{
    char line[32], *rest;
    make(8, 4);
    while (fgets(line, sizeof line, stdin)) {
        char *space = strchr(line, ' ');
        int a = space ? (int)strtol(space, &rest, 10) : 0;
        int b = space ? (int)strtol(rest, &rest, 10) : 0;
        if (line[0] == 'd')
            dot(a, b);
        else if (line[0] == 'l')
            for (int x = 0; x < width; x++)
                dot(x, a);
        else if (line[1] == 'i')
            make(a, b);
        else
            show();
    }
    puts("done");
    return 0;
}
