"""Words of values, places, instructions and bytes, against the RISC-V listing and an ELF file made here."""
import os
import stat
import struct
import tempfile
import unittest

from common import DATA
from showlib.beside import first_difference, shape
from showlib.images import Image, NotImage
from showlib.machine import sort_of, text_of
from showlib.model import Action, Candidate, Invariant
from showlib.places import Places, source_lines
from showlib.sentences import action_words, candidate_sentence, cure_sentence
from showlib.words import end_short, one_line, pieces, ranges
from showlib.model import End


def elf(code=b'\x13\0\0\0' * 8, names=(('main', 0x10000, 16, 2), ('handle', 0x10010, 16, 2), ('table', 0x20000, 4, 1))):
    """An ELF file with one code segment at 00010000 and a table of names."""
    strings, table = b'\0', bytes(16)
    for name, value, size, kind in names:
        table += struct.pack('<IIIBBH', len(strings), value, size, kind, 0, 1)
        strings += name.encode() + b'\0'
    head = 52 + 32
    symbols = head + len(code)
    texts = symbols + len(table)
    sections = texts + len(strings)
    data = struct.pack('<4sBBB9xHHIIIIIHHHHHH', b'\x7fELF', 1, 1, 1, 2, 243, 1, 0x10000, 52, sections, 0, 52, 32, 1, 40,
                       3, 0)
    data += struct.pack('<8I', 1, head, 0x10000, 0x10000, len(code), len(code), 5, 4)
    data += code + table + strings + bytes(40)
    data += struct.pack('<10I', 0, 2, 0, 0, symbols, len(table), 2, 0, 4, 16)
    return data + struct.pack('<10I', 0, 3, 0, 0, texts, len(strings), 0, 0, 1, 0)


class Instructions(unittest.TestCase):
    def test_listing(self):
        # words of the example of the two slots beside its assembler text
        with open(os.path.join(DATA, 'two-slots.bin'), 'rb') as file:
            image = Image(file.read())
        told = [text_of(image.word(address), address) for address in range(0x10000, 0x10038, 4)]
        self.assertEqual(told, ['addi x10,x0,0', 'addi x11,x2,-16', 'addi x12,x0,8', 'addi x17,x0,63', 'ecall',
                                'lw x6,-16(x2)', 'lw x7,-12(x2)', 'jalr x1,0(x6)', 'addi x17,x0,93', 'ecall',
                                'lw x10,0(x7)', 'jalr x0,0(x1)', 'addi x10,x0,9', 'jalr x0,0(x1)'])
        self.assertEqual([sort_of(image.word(address)) for address in (0x10010, 0x10014, 0x1001C, 0x1002C, 0x10030)],
                         ['service call', 'load', 'call', 'return', 'instruction'])
        self.assertIsNone(image.word(0x10038))

    def test_formats(self):
        for word, text in ((0x00C000EF, 'jal x1,0001000C'), (0xFE000EE3, 'beq x0,x0,0000FFFC'),
                           (0x41F35293, 'srai x5,x6,31'), (0x407302B3, 'sub x5,x6,x7'), (0x005503A3, 'sb x5,7(x10)'), (0xFF012303, 'lw x6,-16(x2)'),
                           (0x00010337, 'lui x6,0x10'), (0x0000000F, 'fence'), (0x00100073, 'ebreak'), (0, None),
                           (0xFFFFFFFF, None)):
            self.assertEqual(text_of(word, 0x10000), text)


class Names(unittest.TestCase):
    def test_elf(self):
        places = Places(names=Image(elf()))
        self.assertEqual([places.place(address) for address in (0x10000, 0x10014, 0x10020, 0x20000)],
                         ['main', 'handle+4', '00010020', '00020000'])
        self.assertEqual([places.value(value) for value in (0x10010, 0x10014, 0x20000, 7, 0xFFFFFFFF, 0x12345)],
                         ['handle', 'handle+4', 'table', '7', '-1', '00012345'])
        call = Places(names=Image(elf(struct.pack('<II', 0x010000EF, 0x014000EF) + bytes(24))))
        self.assertEqual([call.instruction(0x10000), call.instruction(0x10004)], ['jal x1,handle', 'jal x1,00010018'])
        self.assertEqual(places.full(0x10014), 'handle+4 (00010014)')

    def test_broken_elf(self):
        for data in (elf()[:60], elf()[:200], b'\x7fELF' + bytes(48), elf(names=())[:-1]):
            self.assertRaises(NotImage, Image, data)

    def test_source_lines(self):
        # two tools: the first cannot read the file, the second answers; the second address has no line
        answer = ('0x00010000', 'get', '/a/b/queue.h:7', 'main', '/a/b/dispatch.c:68 (discriminator 2)', '0x00010004',
                  '??', '??:0')
        with tempfile.TemporaryDirectory() as place:
            tools = []
            for name, text in (('bad', 'exit 1'), ('good', 'cat >/dev/null; printf "%s\\n" ' + ' '.join(
                    f"'{line}'" for line in answer))):
                tools.append(os.path.join(place, name))
                with open(tools[-1], 'w', encoding='ascii') as file:
                    file.write(f'#!/bin/sh\n{text}\n')
                os.chmod(tools[-1], stat.S_IRWXU)
            lines = source_lines('any', [0x10000, 0x10004], tools)
        self.assertEqual(lines, {0x10000: [('get', 'queue.h:7'), ('main', 'dispatch.c:68')]})
        places = Places(names=Image(elf()), lines=lines)
        self.assertEqual([places.place(address) for address in (0x10000, 0x10004)], ['queue.h:7', 'main+4'])
        self.assertEqual(places.full(0x10000), 'queue.h:7 in get, inlined at dispatch.c:68 in main (00010000)')


class Sentences(unittest.TestCase):
    def told(self, sort, registers, values, grade='highly'):
        return candidate_sentence(Candidate(0, 0, Invariant(sort, 0x10000, registers, values), grade), (1, 3), Places())

    def test_candidates(self):
        start = 'Before the instruction at 00010000, '
        self.assertEqual(self.told('one-of', (6,), (0,)),
                         start + 't1 (x6) was always 0; in every checked failure it was not')
        self.assertEqual(self.told('lower', (10,), (0xFFFFFFFE,)),
                         start + 'a0 (x10) was always at least -2; in every checked failure it was less')
        self.assertEqual(self.told('less-than', (6, 2), (), 'moderately'),
                         start + 't1 (x6) was never above sp (x2); in every checked failure it was above, up to 3 '
                                 'times in one run')
        self.assertEqual(self.told('sp-offset', (), (0xFFFFFFF0,), 'slightly'),
                         start + 'sp was always 16 bytes below its value on entry; in some checked failures it was '
                                 'not, but not at the last check of each')

    def test_actions(self):
        places = Places()
        candidate = Candidate(0, 0, Invariant('one-of', 0x10000, (15,), (3, 5)), 'highly')
        for action, words, cure in (
                (Action('set', (15,), 5), 'set a5 (x15) to 5', 'now it is set to the second, 5'),
                (Action('copy', (6, 2)), 'set t1 (x6) to the value of sp (x2)',
                 'now t1 (x6) is set to the value of sp (x2)'),
                (Action('set-sp', (), 0), 'set sp to what it was on entry', 'now it is set to that'),
                (Action('skip', ()), 'skip the call', 'now the call is skipped there'),
                (Action('return', (), 16), 'return from the function at once',
                 'now the function returns there at once')):
            self.assertEqual((action_words(action, places), cure_sentence(candidate, action, places)), (words, cure))


class Bytes(unittest.TestCase):
    def test_pieces(self):
        self.assertEqual(pieces(b'a\n\x1b[1m\xff\xc3\xa9\\'),
                         [('a\n', False), ('\\x1b', True), ('[1m', False), ('\\xff', True), ('é', False),
                          ('\\\\', True)])
        self.assertEqual(one_line(b'x' * 100, 10), 'xxxxxxxxxx…')
        self.assertEqual(one_line(b'a\nb'), 'a\\nb')

    def test_numbers(self):
        self.assertEqual(ranges([1, 2, 3, 5, 7, 8]), '1-3, 5, 7, 8')
        self.assertEqual([end_short(End('exit', code=code)) for code in (7, 0xFFFFFFFF)], ['exit 7', 'exit -1'])

    def test_differences_and_shapes(self):
        self.assertEqual([first_difference(*pair) for pair in ((b'', b''), (b'ab', b'ac'), (b'ab', b'abc'))],
                         [None, 1, 2])
        self.assertEqual(shape(b'total 1024 = 0x1F'), shape(b'count 7 = 0x9A'))
        self.assertNotEqual(shape(b'total 1024'), shape(b'total: 1024'))


if __name__ == '__main__':
    unittest.main()
