#!/usr/bin/env python3
"""machine.py PROGRAM: runs each row of machine.tsv by `plain` and compares what is written.
Columns: name, flat image in hexadecimal, budget, input, end, turns, output (`00*9`: nine times `00`).
The last line is `N passed, M failed`; the status is 1 where a row failed."""
import os

from program import ends, run

HERE = os.path.dirname(os.path.abspath(__file__))


def main():
    with open(os.path.join(HERE, 'machine.tsv'), encoding='utf-8') as table:
        rows = [line.rstrip('\n').split('\t') for line in table if not line.startswith('#')]
    failed = 0
    for name, image, budget, given, end, turns, output in rows:
        done = run(['plain', 'image.bin', budget, given], {'image.bin': bytes.fromhex(image)})
        digits, _, times = output.partition('*')
        wanted = f'end {end}\nturns {turns}\noutput {digits * int(times or 1)}\n'
        if (done.returncode, done.stdout) != (0, wanted):
            failed += 1
            print(f'{name}: status {done.returncode}, {done.stdout!r}, expected {wanted!r}')
    ends(len(rows), failed)


if __name__ == '__main__':
    main()
