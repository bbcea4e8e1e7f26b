/* Mixes samples: each line has a sample and a gain, and the program prints their product and keeps a
   sum. The product is made by a routine in assembler, by additions.

   Defect: the routine leaves early where the gain is 0, and forgets to give its stack back. */
#include <stdio.h>
#include <stdlib.h>

int scaled(int sample, int gain);

__asm__(
    ".section .text.scaled,\"ax\"\n"
    ".globl scaled\n"
    "scaled:\n"
    "  addi sp, sp, -32\n"
    "  sw a0, 12(sp)\n"
    "  li a2, 0\n"
    "  beqz a1, 2f\n"
    "1: lw a3, 12(sp)\n"
    "  add a2, a2, a3\n"
    "  addi a1, a1, -1\n"
    "  bnez a1, 1b\n"
#ifdef FIXED
    "2: addi sp, sp, 32\n"
    "  mv a0, a2\n"
    "  ret\n"
#else
    "  addi sp, sp, 32\n"
    "2: mv a0, a2\n"
    "  ret\n"
#endif
    ".text\n");

static int total, lines;

static void mix(const char *line)
{
    char *rest;
    int sample = (int)strtol(line, &rest, 10);
    int gain = (int)strtol(rest, &rest, 10) & 15;
    int product = scaled(sample, gain);
    total += product;
    lines++;
    printf("%d\n", product);
}

int main(void)
{
    char line[32];
    while (fgets(line, sizeof line, stdin))
        mix(line);
    printf("%d lines %d\n", lines, total);
    return 0;
}
