#!/usr/bin/env python3
"""drills.py PROGRAM: the line of `drill` for a few numbers, worked out from docs/FORMATS.md, "The generator of
drill". The last line is `N passed, M failed`; the status is 1 where a case failed."""
from program import ends, run

# words, and the line, or None where they are no command
CASES = [
    (['0', '1'], 'runs 3 exits 3 failures 0 budgets 0 cases 0 versions 1 withdrawals 0'),
    (['2', '1'], 'runs 3 exits 2 failures 1 budgets 0 cases 1 versions 2 withdrawals 0'),
    (['2', '3'], 'runs 5 exits 2 failures 3 budgets 0 cases 1 versions 3 withdrawals 0'),
    (['0002', '0003'], 'runs 5 exits 2 failures 3 budgets 0 cases 1 versions 3 withdrawals 0'),
    # every later bad input fires the installed repair, and exits
    (['2', '1022'], 'runs 1024 exits 1021 failures 3 budgets 0 cases 1 versions 3 withdrawals 0'),
    ([], None),
    (['2'], None),
    (['2', '0'], None),
    (['2', '1023'], None),
    (['2', '00001'], None),
    (['2', '1', '1'], None),
    (['-2', '1'], None),
    (['0x2', '1'], None),
    (['18446744073709551616', '1'], None),
    (['000000000000000000002', '1'], None),
]


def main():
    failed = 0
    for words, line in CASES:
        done = run(['drill'] + words, {})
        wanted = (0, line + '\n', '') if line else (2, '', 'clearview: usage\n')
        if (done.returncode, done.stdout, done.stderr) != wanted:
            failed += 1
            print(f'drill {words}: {done}')
    ends(len(CASES), failed)


if __name__ == '__main__':
    main()
