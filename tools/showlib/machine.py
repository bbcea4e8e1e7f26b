"""The instructions of RV32I, as far as a reader needs them: text of a word, and what sort it is.

The table is that of docs/FORMATS.md, "RV32I decode table"."""

BRANCHES = {0: 'beq', 1: 'bne', 4: 'blt', 5: 'bge', 6: 'bltu', 7: 'bgeu'}
LOADS = {0: 'lb', 1: 'lh', 2: 'lw', 4: 'lbu', 5: 'lhu'}
STORES = {0: 'sb', 1: 'sh', 2: 'sw'}
IMMEDIATES = {0: 'addi', 2: 'slti', 3: 'sltiu', 4: 'xori', 6: 'ori', 7: 'andi'}
REGISTERS = {(0, 0): 'add', (0, 32): 'sub', (1, 0): 'sll', (2, 0): 'slt', (3, 0): 'sltu', (4, 0): 'xor',
             (5, 0): 'srl', (5, 32): 'sra', (6, 0): 'or', (7, 0): 'and'}
SHIFTS = {(1, 0): 'slli', (5, 0): 'srli', (5, 32): 'srai'}
LINKS = (1, 5)


def extend(value, bits):
    """The number of so many bits, as two's complement."""
    return value - (1 << bits) if value >> (bits - 1) else value


def text_of(word, pc):
    """The word at pc as an instruction, in the form `lw x6,-16(x2)`; None where it is none. Targets are addresses."""
    low, rd, rs1, rs2 = word & 127, word >> 7 & 31, word >> 15 & 31, word >> 20 & 31
    three, seven = word >> 12 & 7, word >> 25
    imm = extend(word >> 20, 12)
    if low == 0x37 or low == 0x17:
        return f'{"lui" if low == 0x37 else "auipc"} x{rd},0x{word >> 12:x}'
    if low == 0x6F:
        offset = (word >> 31) << 20 | (word >> 12 & 255) << 12 | (word >> 20 & 1) << 11 | (word >> 21 & 1023) << 1
        return f'jal x{rd},{pc + extend(offset, 21) & 0xFFFFFFFF:08X}'
    if low == 0x67 and three == 0:
        return f'jalr x{rd},{imm}(x{rs1})'
    if low == 0x63 and three in BRANCHES:
        offset = (word >> 31) << 12 | (word >> 7 & 1) << 11 | (word >> 25 & 63) << 5 | (word >> 8 & 15) << 1
        return f'{BRANCHES[three]} x{rs1},x{rs2},{pc + extend(offset, 13) & 0xFFFFFFFF:08X}'
    if low == 0x03 and three in LOADS:
        return f'{LOADS[three]} x{rd},{imm}(x{rs1})'
    if low == 0x23 and three in STORES:
        return f'{STORES[three]} x{rs2},{extend(seven << 5 | rd, 12)}(x{rs1})'
    if low == 0x13 and three in IMMEDIATES:
        return f'{IMMEDIATES[three]} x{rd},x{rs1},{imm}'
    if low == 0x13 and (three, seven) in SHIFTS:
        return f'{SHIFTS[three, seven]} x{rd},x{rs1},{rs2}'
    if low == 0x33 and (three, seven) in REGISTERS:
        return f'{REGISTERS[three, seven]} x{rd},x{rs1},x{rs2}'
    if low == 0x0F and three == 0:
        return 'fence'
    return {0x73: 'ecall', 0x100073: 'ebreak'}.get(word)


def sort_of(word):
    """What the instruction is to its reader: `call`, `return`, `jump`, `branch`, `load`, `store`, `service call`,
    or `instruction`."""
    low, rd, rs1, three = word & 127, word >> 7 & 31, word >> 15 & 31, word >> 12 & 7
    if low == 0x6F or (low == 0x67 and three == 0):
        if rd in LINKS:
            return 'call'
        return 'return' if low == 0x67 and rs1 in LINKS else 'jump'
    if word == 0x73:
        return 'service call'
    if low == 0x63 and three in BRANCHES:
        return 'branch'
    if low == 0x03 and three in LOADS:
        return 'load'
    if low == 0x23 and three in STORES:
        return 'store'
    return 'instruction'
