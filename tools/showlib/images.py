"""What an image file tells: its words by address, and the names of its functions and objects where it has any.

A flat file has neither segments nor names; an ELF file has both, unless it was stripped."""
import struct
from bisect import bisect_right

FLAT_BASE = 0x00010000


def printable(text):
    """The text with a question mark for each character that is not printed."""
    return ''.join(char if char.isprintable() else '?' for char in text)


class NotImage(Exception):
    """The file is no ELF file for RV32 that can be read."""


class Image:
    """Words and names of a file's bytes. `is_elf` tells which sort of file it is."""

    def __init__(self, data):
        self.is_elf = data[:4] == b'\x7fELF'
        # (address, bytes) of each segment
        self.segments = []
        self.code = None
        self.objects = {}
        self.functions = []
        if not self.is_elf:
            self.segments = [(FLAT_BASE, data)]
            self.code = (FLAT_BASE, data)
            return
        try:
            self.read_segments(data)
            self.read_names(data)
        except (struct.error, IndexError, ValueError) as error:
            raise NotImage('a table of it lies outside the file') from error

    def read_segments(self, data):
        if data[4:6] != b'\x01\x01' or struct.unpack_from('<H', data, 18)[0] != 243:
            raise NotImage('it is no little-endian 32-bit RISC-V file')
        start, = struct.unpack_from('<I', data, 28)
        size, number = struct.unpack_from('<HH', data, 42)
        for place in range(number):
            kind, offset, address, _, in_file, _, flags = struct.unpack_from('<7I', data, start + place * size)
            if kind == 1 and in_file:
                self.segments.append((address, data[offset:offset + in_file]))
                if flags & 1:
                    self.code = self.segments[-1]

    def read_names(self, data):
        start, = struct.unpack_from('<I', data, 32)
        size, number = struct.unpack_from('<HH', data, 46)
        tables = [struct.unpack_from('<10I', data, start + place * size) for place in range(number if start else 0)]
        for table in tables:
            if table[1] != 2:
                continue
            names = tables[table[6]]
            for place in range(table[4], table[4] + table[5], 16):
                name, value, length, info, _, section = struct.unpack_from('<IIIBBH', data, place)
                text = self.name_at(data, names[4] + name)
                if section and text and info & 15 == 2:
                    self.functions.append((value, length, text))
                elif section and text and info & 15 == 1:
                    self.objects.setdefault(value, text)
        self.functions.sort()
        self.starts = [function[0] for function in self.functions]

    @staticmethod
    def name_at(data, place):
        return printable(data[place:data.index(b'\0', place)].decode('utf-8', 'replace'))

    def word(self, address):
        """The word at the address, from the file; None where it has none there."""
        for start, data in self.segments:
            if start <= address and address + 4 <= start + len(data):
                return struct.unpack_from('<I', data, address - start)[0]
        return None

    def in_code(self, address):
        """Whether the address is that of a word of the code."""
        return bool(self.code) and address % 4 == 0 and self.code[0] <= address < self.code[0] + len(self.code[1])

    def function_at(self, address):
        """Name of the function and the distance from its start, in bytes; None where the address is in none."""
        if not self.functions:
            return None
        place = bisect_right(self.starts, address) - 1
        if place < 0:
            return None
        start, length, name = self.functions[place]
        if address - start < max(length, 1):
            return name, address - start
        return None

    def name_of(self, address):
        """The name of the function or object that begins at the address, or None."""
        found = self.function_at(address)
        if found and found[1] == 0:
            return found[0]
        return self.objects.get(address)
