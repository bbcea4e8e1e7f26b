/* A table of routes as a list: `add net hop` puts a route in front, `move net` brings it to the front,
   `find net` tells its hop. Nets and hops are single letters.

   Defect: `move` of the route that is in front already links it to itself; a later search that misses
   never ends. */
#include <stdio.h>
#include <stdlib.h>
#include <string.h>

struct route {
    struct route *next;
    char net, hop;
};

static struct route *first;

static struct route *find(char net, struct route **before)
{
    *before = 0;
    for (struct route *r = first; r; *before = r, r = r->next)
        if (r->net == net)
            return r;
    return 0;
}

static void add(char net, char hop)
{
    struct route *r = malloc(sizeof *r);
    r->net = net;
    r->hop = hop;
    r->next = first;
    first = r;
}

static void move(char net)
{
    struct route *before, *r = find(net, &before);
    if (!r)
        return;
#ifdef FIXED
    if (!before)
        return;
#endif
    if (before)
        before->next = r->next;
    r->next = first;
    first = r;
}

int main(void)
{
    char line[32];
    int missed = 0;
    while (fgets(line, sizeof line, stdin)) {
        struct route *before, *r;
        if (line[0] == 'a')
            add(line[4], line[6]);
        else if (line[0] == 'm')
            move(line[5]);
        else if ((r = find(line[5], &before)))
            printf("%c by %c\n", r->net, r->hop);
        else
            missed++;
    }
    printf("missed %d\n", missed);
    return 0;
}
