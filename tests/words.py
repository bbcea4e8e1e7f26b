#!/usr/bin/env python3
"""words.py PROGRAM: words that are no command, each a command with one word changed, left out or
added (docs/FORMATS.md, "Words"). The last line is `N passed, M failed`; the status is 1 where a
case failed."""
from program import HELLO, ends, run

FILES = {
    'p.bin': HELLO,
    'source': b'ecall\n',
    'job': b'{"image":"p.bin","workers":1,"checks":2,"budget":9,"rounds":[{"mode":"learn","inputs":[""]}]}',
}
ACCEPTED = [['plain', 'p.bin', '1000', 'none'], ['plain', 'p.bin', '00001000', '0aF0'],
            ['plain', 'p.bin', '1000', '00' * 65_535],  # the longest that a shell can hand over
            ['check', 'job'], ['infer', 'job'], ['run', 'job'], ['kept', 'job'], ['drill', '0', '0001'],
            ['asm', 'source'], ['list', 'p.bin']]
REFUSED = [
    [], [''], ['Plain', 'p.bin', '1000', 'none'], ['plain'], ['plain', 'p.bin', '1000'],
    ['plain', 'p.bin', '1000', 'none', 'none'], ['plain', '', '1000', 'none'],
    ['plain', '-p.bin', '1000', 'none'],
    ['plain', 'p.bin', '0', 'none'], ['plain', 'p.bin', '', 'none'],
    ['plain', 'p.bin', '10000001', 'none'], ['plain', 'p.bin', '000000001', 'none'],
    ['plain', 'p.bin', '+1', 'none'], ['plain', 'p.bin', '1e3', 'none'],
    ['plain', 'p.bin', '1000', ''], ['plain', 'p.bin', '1000', '0'],
    ['plain', 'p.bin', '1000', '0g'], ['plain', 'p.bin', '1000', 'None'], ['plain', 'p.bin', '1000', '0' * 131_069],
    ['plain', b'p\xff', '1000', 'none'], [b'\xff'], ['run', b'\xed\xa0\x80'], ['plain'] * 10_000,
    *[[command, *rest] for command in ('check', 'infer', 'run', 'kept', 'asm', 'list')
      for rest in ([], [''], ['-job'], ['job', 'none'])],
    ['drill', ''], ['drill', '', '1'],
]


def main():
    failed = 0
    for words in ACCEPTED:
        done = run(words, FILES)
        if done.returncode != 0 or not done.stdout or done.stderr:
            failed += 1
            print(f'{str(words)[:200]}: {done}')
    for words in REFUSED:
        done = run(words, FILES)
        if (done.returncode, done.stdout, done.stderr) != (2, '', 'clearview: usage\n'):
            failed += 1
            print(f'{str(words)[:200]}: {done}')
    ends(len(ACCEPTED) + len(REFUSED), failed)


if __name__ == '__main__':
    main()
