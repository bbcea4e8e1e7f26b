"""Addresses as a person says them: a source line, a function and a distance, or eight digits.

Source lines come from an `addr2line` that reads the ELF file; without one, or without debug data, functions
come from the file's own table of names."""
import os
import re
import shutil
import subprocess

from . import machine
from .images import printable

# the target of a jump or a branch, as an instruction's text ends with it
TARGET = re.compile(r'[0-9A-F]{8}')
TOOLS = ('riscv64-unknown-elf-addr2line', 'riscv32-unknown-elf-addr2line', 'riscv64-linux-gnu-addr2line',
         'llvm-addr2line', 'addr2line')


def addresses_of(report):
    """All addresses of a report that its story names, in order."""
    found = set()
    for entry in report.entries:
        found.update(entry.sites)
        if entry.end.sort == 'failure':
            found.add(entry.end.pc)
    for case in report.cases:
        found.add(case.pc)
        found.update(candidate.invariant.point for candidate in case.candidates if candidate.grade != 'not')
    return sorted(found)


def source_lines(path, addresses, tools=TOOLS):
    """For each address that has a source line the list of (function, `file:line`), the innermost inlined function
    first, by the first tool that reads the file."""
    asked = ''.join(f'0x{address:08x}\n' for address in addresses)
    for tool in tools:
        if not shutil.which(tool):
            continue
        try:
            done = subprocess.run([tool, '-a', '-f', '-i', '-e', path], input=asked, capture_output=True, text=True,
                                  errors='replace', timeout=60)
        except (OSError, subprocess.TimeoutExpired):
            continue
        if not done.returncode and done.stdout:
            return read_lines([printable(line) for line in done.stdout.splitlines()])
    return {}


def read_lines(told):
    """What addr2line told: a line with each address, then two lines for each function that it stands in."""
    found, chain = {}, []
    name = None
    for line in told:
        if line.startswith('0x'):
            chain = found.setdefault(int(line, 16), [])
            name = None
        elif name is None:
            name = line
        else:
            file, colon, number = line.split(' (')[0].rpartition(':')
            if colon and number.isdigit() and number != '0' and not file.startswith('?'):
                chain.append((None if name.startswith('?') else name, f'{os.path.basename(file)}:{number}'))
            name = None
    return {address: chain for address, chain in found.items() if chain}


class Places:
    """Names of addresses. `image` gives the instructions, `names` an ELF file's names; either may be None."""

    def __init__(self, image=None, names=None, lines=None):
        self.image = image or names
        self.names = names
        self.lines = lines or {}

    @staticmethod
    def digits(address):
        """The address as the report writes it."""
        return f'{address:08X}'

    def source(self, address):
        """`dispatch.c:68`, or None."""
        found = self.lines.get(address)
        return found[0][1] if found else None

    def function(self, address):
        """The function that holds the address, or None."""
        found = self.lines.get(address)
        if found and found[0][0]:
            return found[0][0]
        inside = self.names.function_at(address) if self.names else None
        return inside[0] if inside else None

    def place(self, address):
        """The shortest name that a person can find the place by: `dispatch.c:68`, `dispatch+36`, `00010018`."""
        source = self.source(address)
        if source:
            return source
        inside = self.names.function_at(address) if self.names else None
        if inside:
            return f'{inside[0]}+{inside[1]}' if inside[1] else inside[0]
        return self.digits(address)

    def full(self, address):
        """The place with its function, those that it was inlined into, and its digits."""
        digits = self.digits(address)
        if address in self.lines:
            chain = [f'{source} in {function}' if function else source for function, source in self.lines[address]]
            return f'{", inlined at ".join(chain)} ({digits})'
        short = self.place(address)
        return short if short == digits else f'{short} ({digits})'

    def instruction(self, address):
        """The instruction at the address as text, or None where no image tells it."""
        word = self.image.word(address) if self.image else None
        text = None if word is None else machine.text_of(word, address)
        head, comma, target = (text or '').rpartition(',')
        name = self.names.name_of(int(target, 16)) if self.names and TARGET.fullmatch(target) else None
        return f'{head}{comma}{name}' if name else text

    def sort(self, address):
        """`call`, `load`, ...: what stands at the address; `instruction` where no image tells it."""
        word = self.image.word(address) if self.image else None
        return 'instruction' if word is None else machine.sort_of(word)

    def is_code(self, value):
        """Whether the value is the address of an instruction, as far as an image tells."""
        return bool(self.image and self.image.in_code(value))

    def address(self, value):
        """A value that is an address: the name that begins there, or eight digits."""
        return (self.names.name_of(value) if self.names else None) or self.digits(value)

    def value(self, value):
        """A value: the name that begins there, a place in a function, a small number, or eight digits."""
        name = self.names.name_of(value) if self.names else None
        if name:
            return name
        if self.names and self.names.in_code(value) and self.names.function_at(value):
            return '{}+{}'.format(*self.names.function_at(value))
        if value < 0x1000:
            return str(value)
        if value >= 0xFFFFF000:
            return str(value - (1 << 32))
        return self.digits(value)
