#!/usr/bin/env python3
"""kit.py PROGRAM: the kit of guest/. What its library prints is what a host's C library printed
(examples/kit/library.txt), by `plain` and under qemu-riscv32; the examples' kept files are what the
compiler makes of their sources; programs without data, stripped or not, are read. What needs the compiler
or the emulator is left out where these are missing. The last line is `N passed, M failed`; the status is 1
where a case failed."""
import os
import shutil
import subprocess
import tempfile

from program import builds_the_kept, can_build, ends, run

TOP = os.path.abspath(os.path.join(os.path.dirname(os.path.abspath(__file__)), '..'))
GIVEN = b'first line\nXand the rest'
WORDLESS = 'int main(void) { return 5; }\n'
BSS = 'static int seen[40];\nint main(void) { for (int i = 0; i < 40; i++) seen[i] = i; return seen[7]; }\n'
results = []


def case(name, right, what=''):
    results.append(right)
    if not right:
        print(f'{name}: {what}')


def file(*parts):
    with open(os.path.join(TOP, *parts), 'rb') as opened:
        return opened.read()


def plain(image, given):
    done = run(['plain', 'image.elf', '1000000', given.hex() or 'none'], {'image.elf': image})
    return done.stdout.splitlines() or [done.stderr]


def library():
    wanted = ['end exit:3', None, 'output ' + file('examples', 'kit', 'library.txt').hex()]
    told = plain(file('examples', 'kit', 'library.elf'), GIVEN)
    case('library', told[0] == wanted[0] and told[-1] == wanted[2], told)
    case('count', plain(file('examples', 'kit', 'count.elf'), b'one two\n\tthree ')[::2]
         == ['end exit:3', 'output 330a'])
    if shutil.which('qemu-riscv32'):
        done = subprocess.run(['qemu-riscv32', os.path.join(TOP, 'examples', 'kit', 'library.elf')],
                              input=GIVEN, capture_output=True, timeout=60)
        case('library under qemu', (done.returncode, done.stdout) == (3, file('examples', 'kit', 'library.txt')), done)


def make(place, target, *more):
    return subprocess.run(['make', '-s', '-C', place, target, *more], capture_output=True, text=True, timeout=120)


def built():
    if not can_build():
        return
    with tempfile.TemporaryDirectory() as place:
        for folder in ('guest', 'examples/kit'):
            shutil.copytree(os.path.join(TOP, folder), os.path.join(place, folder))
        for name in ('count', 'library'):
            os.remove(os.path.join(place, 'examples', 'kit', name + '.elf'))
        done = make(place, 'all', '-f', 'examples/kit/Makefile')
        case('examples build', (done.returncode, done.stderr) == (0, ''), done)
        for name in ('count', 'library') if builds_the_kept() else ():
            with open(os.path.join(place, 'examples', 'kit', name + '.elf'), 'rb') as made:
                case(f'{name} built anew', made.read() == file('examples', 'kit', name + '.elf'))
        for source, answer in ((WORDLESS, 5), (BSS, 7)):
            with open(os.path.join(place, 'small.c'), 'w', encoding='utf-8') as made:
                made.write(source)
            for level in ('-O0', '-Os'):
                pair = []
                for debug in ('-g', '-s'):
                    done = make(place, 'small.elf', '-B', '-f', 'guest/guest.mk', f'OPT={level}', f'DEBUG={debug}')
                    with open(os.path.join(place, 'small.elf'), 'rb') as made:
                        pair.append(plain(made.read(), b''))
                    case(f'small {level} {debug}', pair[-1][0] == f'end exit:{answer}', (done, pair[-1]))
                case(f'small {level}, with symbols and without', pair[0] == pair[1], pair)


def main():
    library()
    built()
    ends(len(results), results.count(False))


if __name__ == '__main__':
    main()
