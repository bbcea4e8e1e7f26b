#!/usr/bin/env python3
"""listings.py PROGRAM: `asm` and `list` (docs/FORMATS.md, "Assembly"). Sources with the bytes that they
make, faults with their lines, listed words, sources at their limits; and the listing of each image in
examples/ assembles to the image's text, which is read here from the file. The last line is
`N passed, M failed`; the status is 1 where a case failed."""
import pathlib
import struct

from program import ends, run

EXAMPLES = pathlib.Path(__file__).resolve().parent.parent / 'examples'

# source, the bytes that it makes
SOURCES = [
    ('addi x17,x0,93\naddi x10,x0,0\necall\n', '9308d0051305000073000000'),
    ('beq x0,x0,out\nout: ebreak\n', '6302000073001000'),
    ('loop: beq x0 x0 loop\n', '63000000'),
    ('\tlw x6 , -16 ( x2 ) # a word\r\nfence', '032301ff0f00f00f'),
    ('.word 0xDEADBEEF\n', 'efbeadde'),
    ('', ''),
    ('# says nothing\n\nlabel:\n', ''),
]

# source, its first fault
FAULTS = [
    ('addi x1,x2,2048\n', 'line 1 out-of-range 3'),
    ('jal x0,there\n', 'line 1 unknown-label 2'),
    ('ecall\n1st: ecall\n', 'line 2 bad-label'),
    ('a:\n\na: ecall\n', 'line 3 double-label'),
    ('ADD x1,x2,x3\n', 'line 1 unknown-name'),
    ('add x1,x2\n', 'line 1 operand-count'),
    ('add x1,x02,x3\n', 'line 1 bad-operand 2'),
    ('slli x1,x1,32\nnone\n', 'line 1 out-of-range 3'),
    ('ecall\n' * 65_537, 'line 65537 too-many-words'),
]

# words, their listing
LISTED = [
    ('6f000000032301ffe700030000000000', 'jal x0,0\nlw x6,-16(x2)\njalr x1,0(x6)\n.word 0x00000000\n'),
    ('9308d0051305000073000000', 'addi x17,x0,93\naddi x10,x0,0\necall\n'),
    ('0f00f00f0f000000', 'fence\n.word 0x0000000F\n'),
]

failed = count = 0


def case(name, done, status, written, line=None):
    global failed, count
    count += 1
    told = b'' if line is None else f'clearview: {line}\n'.encode()
    if (done.returncode, done.stdout, done.stderr) != (status, written, told):
        failed += 1
        print(f'{name}: {str(done)[:300]}')


def asm(source):
    return run(['asm', 'source'], {'source': source}, text=False)


def listing(image):
    return run(['list', 'image'], {'image': image}, text=False)


def text_of(image):
    """The bytes of an image's text: a flat file's are all, an ELF file's those of its words in the
    executable segment."""
    if not image.startswith(b'\x7fELF'):
        return image
    (first,), (number,) = struct.unpack_from('<I', image, 28), struct.unpack_from('<H', image, 44)
    for at in range(first, first + 32 * number, 32):
        kind, offset, start, _, size, memory, flags, _ = struct.unpack_from('<8I', image, at)
        if kind == 1 and memory and flags & 1:
            skipped = -start % 4
            return image[offset + skipped:offset + skipped + (size - skipped) // 4 * 4]
    raise ValueError('no text')


def main():
    for source, made in SOURCES:
        case(source, asm(source.encode()), 0, bytes.fromhex(made))
    for source, fault in FAULTS:
        case(source[:40], asm(source.encode()), 8, b'', f'source refused: {fault}')
    for words, lines in LISTED:
        case(words, listing(bytes.fromhex(words)), 0, lines.encode())
    case('most words', asm(b'ecall\n' * 65_536), 0, bytes.fromhex('73000000') * 65_536)
    case('longest source', asm(b'#' * 4_194_304), 0, b'')
    case('hello', asm((EXAMPLES / 'hello.s').read_bytes()), 0, (EXAMPLES / 'hello.bin').read_bytes())
    for path in sorted([*EXAMPLES.rglob('*.bin'), *EXAMPLES.rglob('*.elf')]):
        image = path.read_bytes()
        case(path, asm(listing(image).stdout), 0, text_of(image))
    ends(count, failed)


if __name__ == '__main__':
    main()
