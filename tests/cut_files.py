#!/usr/bin/env python3
"""cut_files.py PROGRAM: an ELF file and a job cut at every length: which fault the file is refused
with, by the order of the tests (docs/FORMATS.md, "ELF image"), and that no beginning of a job is JSON.
The last line is `N passed, M failed`; the status is 1 where a case failed."""
import struct

from program import ends, run

# A file of 132 bytes that GNU ld could have made: a text whose last words exit with 0, and data.
WORDS = {0: 0x464c457f, 1: 0x00010101, 4: 0x00f30002, 6: 0x00010074, 7: 52, 10: 0x00200000, 11: 2,
         13: 1, 15: 0x00010000, 17: 128, 18: 128, 19: 5,
         21: 1, 22: 128, 23: 0x00011080, 25: 4, 26: 16, 27: 6,
         29: 0x05d00893, 30: 0x00000513, 31: 0x00000073}
FILE = struct.pack('<33I', *(WORDS.get(at, 0) for at in range(33)))
# the first lengths, and what is told from there on
TOLD = [(0, 'empty'), (1, 'not-words'), (4, 'short'), (52, 'headers-outside'),
        (116, 'segment-outside 0'), (128, 'segment-outside 1')]
JOB = (b'{"image":"p.elf","workers":1,"checks":2,"budget":1000,"rounds":[{"mode":"learn","inputs":["24000100","2C000100"]},'
       b'{"mode":"live","inputs":["00000000","00000000","00000000","00000000"]}]}')


def of_image(length):
    """What `plain` has to give of the first bytes of the ELF file."""
    if length == len(FILE):
        return 0, 'end exit:0\nturns 3\noutput -\n', ''
    fault = [name for start, name in TOLD if start <= length][-1]
    return 4, '', f'clearview: image refused: {fault}\n'


def of_job(length):
    """What `check` has to give of the first bytes of the job."""
    if length == len(JOB):
        return 0, 'job workers 1 checks 2 budget 1000 rounds 2 runs 6\ntext 00010000 32 entry 00010074\n', ''
    return 3, '', 'clearview: job refused: not-json\n'


def main():
    cases = [(['plain', 'p.elf', '1000', 'none'], {'p.elf': FILE[:length]}, of_image(length)) for length in range(len(FILE) + 1)]
    cases += [(['check', 'job'], {'p.elf': FILE, 'job': JOB[:length]}, of_job(length)) for length in range(len(JOB) + 1)]
    failed = 0
    for words, files, wanted in cases:
        done = run(words, files)
        if (done.returncode, done.stdout, done.stderr) != wanted:
            failed += 1
            print(f'{words} of {[len(content) for content in files.values()]} bytes: {done}')
    ends(len(cases), failed)


if __name__ == '__main__':
    main()
