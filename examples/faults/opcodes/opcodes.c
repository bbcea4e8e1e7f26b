/* A stack machine: the input is its program, a byte for the operation and, for `push`, one for the
   value. The last operation is `stop`.

   Defect: the operation is used as an index into the table of functions without a test. */
#include <stdio.h>
#include <stdlib.h>

#include "clearview.h"

static int stack[32], depth;
static unsigned char *at;
static int running = 1;

static void push(int value)
{
    if (depth < 32)
        stack[depth++] = value;
}

static int pop(void) { return depth > 0 ? stack[--depth] : 0; }

static void op_stop(void) { running = 0; }
static void op_push(void) { push(*at++); }
static void op_add(void) { push(pop() + pop()); }
static void op_sub(void) { int b = pop(); push(pop() - b); }
static void op_dup(void) { int a = pop(); push(a); push(a); }
static void op_swap(void) { int a = pop(), b = pop(); push(a); push(b); }
static void op_print(void) { printf("%d\n", pop()); }
static void op_neg(void) { push(-pop()); }

static void (*const operations[])(void) = { op_stop, op_push, op_add, op_sub, op_dup, op_swap, op_print, op_neg };

int main(void)
{
    at = (unsigned char *)read_all(0);
    while (running) {
        unsigned int op = *at++;
#ifdef FIXED
        if (op >= sizeof operations / sizeof operations[0]) {
            printf("no operation %u\n", op);
            return 1;
        }
#endif
        operations[op]();
    }
    printf("depth %d\n", depth);
    return 0;
}
