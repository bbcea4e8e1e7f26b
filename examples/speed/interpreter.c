/* A plain interpreter of the same loops, for comparison: a switch over instructions that were
   decoded once, with the range test of an access and a stack of return addresses, and nothing else.
   gcc -O2 -o interpreter interpreter.c; ./interpreter IMAGE TURNS prints turns per second. */
#include <stdint.h>
#include <stdio.h>
#include <stdlib.h>
#include <time.h>

enum op { LW, LBU, SW, SB, ADDI, SLLI, ADD, SUB, XOR, OR, BNE, JAL, JALR, STOP };
struct inst { uint8_t op, rd, rs1, rs2; int32_t imm; };

static uint8_t memory[0x800000];
static struct inst text[65536];
static uint32_t frames[4096];

static struct inst decoded(uint32_t w)
{
    struct inst i = { STOP, w >> 7 & 31, w >> 15 & 31, w >> 20 & 31, (int32_t)w >> 20 };
    uint32_t kind = w >> 12 & 7;
    switch (w & 0x7f) {
    case 0x03: i.op = kind == 2 ? LW : LBU; break;
    case 0x23: i.op = kind == 2 ? SW : SB; i.imm = ((int32_t)w >> 25) * 32 + (int32_t)(w >> 7 & 31); break;
    case 0x13: i.op = kind == 1 ? SLLI : ADDI; if (kind == 1) i.imm &= 31; break;
    case 0x33: i.op = kind == 4 ? XOR : kind == 6 ? OR : w >> 30 ? SUB : ADD; break;
    case 0x63: i.op = BNE; i.imm = ((int32_t)w >> 31) * 4096 + (int32_t)((w >> 7 & 1) << 11 | (w >> 25 & 63) << 5 | (w >> 8 & 15) << 1); break;
    case 0x6f: i.op = JAL; i.imm = ((int32_t)w >> 31) * 1048576 + (int32_t)((w >> 12 & 255) << 12 | (w >> 20 & 1) << 11 | (w >> 21 & 1023) << 1); break;
    case 0x67: i.op = JALR; break;
    }
    return i;
}

int main(int count, char **words)
{
    uint32_t x[32] = { 0 }, pc = 0, size = 0, depth = 0, w;
    if (count < 3) return 2;
    FILE *f = fopen(words[1], "rb");
    long turns = atol(words[2]), done;
    if (!f) return 2;
    while (size < 65536 && fread(&w, 4, 1, f) == 1) text[size++] = decoded(w);
    x[2] = 0x800000;
    struct timespec a, b;
    clock_gettime(CLOCK_MONOTONIC, &a);
    for (done = 0; done < turns; done++) {
        if (pc / 4 >= size) break;
        struct inst i = text[pc / 4];
        uint32_t at = x[i.rs1] + (uint32_t)i.imm, v = 0, next = pc + 4;
        switch (i.op) {
        case LW: if (at & 3 || at > 0x7ffffc) return 3; v = *(uint32_t *)(memory + at); break;
        case LBU: if (at > 0x7fffff) return 3; v = memory[at]; break;
        case SW: if (at & 3 || at > 0x7ffffc) return 3; *(uint32_t *)(memory + at) = x[i.rs2]; i.rd = 0; break;
        case SB: if (at > 0x7fffff) return 3; memory[at] = (uint8_t)x[i.rs2]; i.rd = 0; break;
        case ADDI: v = at; break;
        case SLLI: v = x[i.rs1] << i.imm; break;
        case ADD: v = x[i.rs1] + x[i.rs2]; break;
        case SUB: v = x[i.rs1] - x[i.rs2]; break;
        case XOR: v = x[i.rs1] ^ x[i.rs2]; break;
        case OR: v = x[i.rs1] | x[i.rs2]; break;
        case BNE: if (x[i.rs1] != x[i.rs2]) next = pc + (uint32_t)i.imm; i.rd = 0; break;
        case JAL: if (i.rd == 1) { if (depth == 4096) return 3; frames[depth++] = next; } v = next; next = pc + (uint32_t)i.imm; break;
        case JALR: if (i.rs1 == 1) { if (!depth || frames[depth - 1] != at) return 3; depth--; } v = next; next = at & ~1u; break;
        default: return 3;
        }
        if (i.rd) x[i.rd] = v;
        pc = next;
    }
    clock_gettime(CLOCK_MONOTONIC, &b);
    double seconds = (double)(b.tv_sec - a.tv_sec) + (double)(b.tv_nsec - a.tv_nsec) / 1e9;
    printf("%ld turns, %.0f a second (%u)\n", done, (double)done / seconds, x[5]);
    return 0;
}
