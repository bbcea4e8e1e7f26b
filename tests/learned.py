#!/usr/bin/env python3
"""learned.py PROGRAM: what `infer` writes of a few programs, worked out by hand from docs/REPAIR.md.
The last line is `N passed, M failed`; the status is 1 where a case failed."""
import json
import struct

from program import ends, run

# reads an address and calls it
CALLING = [0x00000513, 0xff010593, 0x00400613, 0x03f00893, 0x00000073, 0xff012303, 0x000300e7,
           0x05d00893, 0x00000073, 0x00700513, 0x00008067, 0x00900513, 0x00008067]
# reads a word into x6, moves it to x10 and exits
MOVING = [0x00000513, 0xff010593, 0x00400613, 0x03f00893, 0x00000073, 0xff012303, 0x00030513,
          0x05d00893, 0x00000073]
FOUR = ['01000000', '02000000', '03000000', '04000000']

# words, learn inputs, the last line (None: any), lines that stand there, lines that do not
CASES = [
    (CALLING, ['00000000'], 'learned 0', [], ['sp-offset 00010000 00000000']),
    (MOVING, FOUR, None, ['one-of 00010018 x6 00000001,00000002,00000003,00000004'], []),
    # a fifth value: the least, as a signed number
    (MOVING, FOUR + ['FFFFFFFF'], None, ['lower 00010018 x6 FFFFFFFF'],
     ['one-of 00010018 x6 00000001,00000002,00000003,00000004']),
]


def main():
    failed = 0
    for words, inputs, last, there, absent in CASES:
        job = {'image': 'image.bin', 'workers': 1, 'checks': 2, 'budget': 1000,
               'rounds': [{'mode': 'learn', 'inputs': inputs}]}
        done = run(['infer', 'job.json'], {'image.bin': struct.pack(f'<{len(words)}I', *words),
                                           'job.json': json.dumps(job).encode()})
        lines = done.stdout.splitlines()
        told = (done.returncode == 0 and (last is None or lines[-1] == last)
                and all(lines.count(line) == 1 for line in there)
                and not any(line in lines for line in absent))
        if not told:
            failed += 1
            print(f'{inputs}: {done}')
    ends(len(CASES), failed)


if __name__ == '__main__':
    main()
