#!/usr/bin/env python3
"""Puts source lines and texts to what clearview writes: reads what `plain`, `infer` or `run` wrote from the
input, and writes each line again, with notes below it. Addresses in the image's text get their function
and source line (they need symbols in the image, and riscv64-unknown-elf-addr2line); an output gets its
text, with what is not printable as escapes.

    ./clearview plain program.elf 100000 none | tools/explain.py program.elf
    grep ^case report.txt | tools/explain.py program.elf"""
import re
import shutil
import struct
import subprocess
import sys

from report import ADDR2LINE, places

ADDRESS = re.compile(r'\b[0-9A-F]{8}\b')
OUTPUT = re.compile(r'(?:^| )output ([0-9a-f]+)')


def text_range(image):
    """The addresses of the executable segment of an ELF file; none for a flat file."""
    with open(image, 'rb') as file:
        content = file.read()
    if content[:4] != b'\x7fELF':
        print(f'explain: note: no source lines: {image} is no ELF file', file=sys.stderr)
        return range(0)
    offset, = struct.unpack_from('<I', content, 28)
    count, = struct.unpack_from('<H', content, 44)
    for number in range(count):
        kind, _, start, _, _, size, flags = struct.unpack_from('<7I', content, offset + 32 * number)
        if kind == 1 and flags & 1:
            return range(start, start + size)
    return range(0)


def main():
    if len(sys.argv) != 2 or sys.argv[1].startswith('-'):
        sys.exit(__doc__)
    image = sys.argv[1]
    try:
        inside = text_range(image)
    except OSError as error:
        sys.exit(f'explain: {image}: {error.strerror}')
    except struct.error:
        sys.exit(f'explain: {image}: the ELF file was cut')
    if not shutil.which(ADDR2LINE):
        print(f'explain: note: no source lines: there is no {ADDR2LINE}', file=sys.stderr)
    lines = sys.stdin.read().splitlines()
    found = sorted({a for line in lines for a in ADDRESS.findall(line) if int(a, 16) in inside})
    try:
        known = places(image, found)
    except subprocess.CalledProcessError as error:
        sys.exit(f'explain: {image}: {ADDR2LINE} cannot read it: {error.stderr.strip()}')
    for line in lines:
        print(line)
        for address in dict.fromkeys(ADDRESS.findall(line)):
            if address in known:
                inner = ', in '.join(f'{line} {function}' for line, function in known[address])
                print(f'    {address} is {inner}')
        output = OUTPUT.search(line)
        if output:
            print(f'    writes {bytes.fromhex(output.group(1)).decode("latin-1")!r}')


if __name__ == '__main__':
    main()
