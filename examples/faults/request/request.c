/* Reads the head of a request: `GET /path`, then lines `Name: value`, and answers for each request of
   the input what it understood.

   Defect: a value is copied into 32 bytes of the stack whatever its length; behind them lie the
   saved registers and the return address. */
#include <stdio.h>
#include <stdlib.h>
#include <string.h>

#include "clearview.h"

static int length, keep, fields;

/* Not inlined, as if it stood in another file. */
__attribute__((noinline)) static void field(const char *name, const char *from)
{
    char value[32];
#ifdef FIXED
    strncpy(value, from, sizeof value - 1);
    value[sizeof value - 1] = 0;
#else
    strcpy(value, from);
#endif
    fields++;
    if (strcmp(name, "Length") == 0)
        length = atoi(value);
    else if (strcmp(name, "Connection") == 0)
        keep = strcmp(value, "keep") == 0;
    else
        printf("%s is %u long\n", name, (unsigned)strlen(value));
}

static void request(const char *line)
{
    printf("%s\n", line);
    length = keep = fields = 0;
}

static void answer(void)
{
    printf("fields %d length %d keep %d\n", fields, length, keep);
}

static char *next_line(char *at)
{
    char *end = strchr(at, '\n');
    if (!end)
        return at + strlen(at);
    *end = 0;
    return end + 1;
}

int main(void)
{
    char *at = read_all(0);
    int open = 0;
    while (*at) {
        char *line = at;
        at = next_line(at);
        char *colon = strchr(line, ':');
        if (!*line) {
            if (open)
                answer();
            open = 0;
        } else if (colon) {
            *colon = 0;
            field(line, colon + 2);
        } else {
            request(line);
            open = 1;
        }
    }
    if (open)
        answer();
    return 0;
}
