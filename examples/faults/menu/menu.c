/* The console of a small device. Each line is a verb, a number and a label, `add 5 pump`; the verb
   chooses what is done with the number, and the label is told with the result.

   Defect: the label is copied into 8 bytes whatever its length, and the pointer to the verb's
   function lies behind them. */
#include <stdio.h>
#include <stdlib.h>
#include <string.h>

#include "clearview.h"

struct request {
    char label[8];
    int (*act)(int number);
    char line[80];
};

static struct request request;
static int level, lines;

static int add(int number) { return level += number; }
static int take(int number) { return level -= number; }
static int set(int number) { return level = number; }
static int show(int number) { return level >= number; }

static const struct { const char *verb; int (*act)(int); } verbs[] = {
    { "add", add }, { "take", take }, { "set", set }, { "show", show },
};

static void serve(char *verb, int number, char *label)
{
    request.act = 0;
    for (unsigned int i = 0; i < sizeof verbs / sizeof verbs[0]; i++)
        if (strcmp(verb, verbs[i].verb) == 0)
            request.act = verbs[i].act;
    if (!request.act) {
        printf("unknown %s\n", verb);
        return;
    }
#ifdef FIXED
    if (strlen(label) >= sizeof request.label) {
        printf("label too long\n");
        return;
    }
#endif
    strcpy(request.label, label);
    int result = request.act(number);
    printf("%s %d\n", request.label, result);
    lines++;
}

/* The next word of the line, ended by a zero byte; the place behind it. */
static char *word(char *at, char **text)
{
    while (*at == ' ')
        at++;
    *text = at;
    while (*at && *at != ' ')
        at++;
    if (*at)
        *at++ = 0;
    return at;
}

int main(void)
{
    char *verb, *number, *label, *line = request.line;
    while (fgets(line, sizeof request.line, stdin)) {
        line[strlen(line) - 1] = 0;
        word(word(word(line, &verb), &number), &label);
        serve(verb, atoi(number), label);
    }
    printf("%d served\n", lines);
    return 0;
}
