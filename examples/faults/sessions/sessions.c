/* A server of sessions. `open 2 ann` begins session 2 for ann, `send 2 text` counts the text for it,
   `close 2` ends it and tells what it sent.

   Defect: `close` frees the session's block and leaves it in the table, so that a later `send` uses it. */
#include <stdio.h>
#include <stdlib.h>
#include <string.h>

#include "clearview.h"

struct session {
    char user[12];
    int messages, bytes;
};

static struct session *table[8];

static void open_session(int number, const char *user)
{
    struct session *s = malloc(sizeof *s);
    strncpy(s->user, user, sizeof s->user - 1);
    table[number] = s;
    printf("opened %d\n", number);
}

static void send_text(int number, const char *text)
{
    struct session *s = table[number];
    if (!s) {
        printf("no session %d\n", number);
        return;
    }
    s->messages++;
    s->bytes += (int)strlen(text);
}

static void close_session(int number)
{
    struct session *s = table[number];
    if (!s) {
        printf("no session %d\n", number);
        return;
    }
    printf("%s sent %d of %d\n", s->user, s->messages, s->bytes);
#ifdef FIXED
    table[number] = 0;
#endif
    free(s);
}

int main(void)
{
    char line[64];
    while (fgets(line, sizeof line, stdin)) {
        line[strlen(line) - 1] = 0;
        int number = line[5] & 7;
        if (strncmp(line, "open ", 5) == 0)
            open_session(number, line + 7);
        else if (strncmp(line, "send ", 5) == 0)
            send_text(number, line + 7);
        else if (strncmp(line, "close", 5) == 0)
            close_session(line[6] & 7);
    }
    puts("bye");
    return 0;
}
