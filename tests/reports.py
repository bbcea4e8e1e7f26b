#!/usr/bin/env python3
"""reports.py PROGRAM: what `check`, `infer` and `run` write of the jobs in tests/jobs, byte for byte.
The stored texts are no output of this program: they come from an independent transcription of the
rules of docs/REPAIR.md. In `good-runs-learned` live runs change what is learned, and so the
candidates of the next case; in `repaired-runs-unlearned` they would, but a repair fired in them. The
last line is `N passed, M failed`; the status is 1 where a text differs."""
import os
import sys

from program import ends, run

JOBS = os.path.join(os.path.dirname(os.path.abspath(__file__)), 'jobs')


def content(name, file):
    with open(os.path.join(JOBS, name, file), 'rb') as stored:
        return stored.read()


def difference(told, wanted):
    """The first line that differs, for a person to read."""
    lines, others = told.split('\n'), wanted.split('\n')
    at = next((i for i, pair in enumerate(zip(lines, others)) if pair[0] != pair[1]),
              min(len(lines), len(others)))
    return f'line {at + 1}: {lines[at:at + 1]}, expected {others[at:at + 1]}'


def main():
    cases = [(name, command, text) for name in sorted(os.listdir(JOBS))
             for command, file in [('check', 'check.txt'), ('infer', 'infer.txt'), ('run', 'report.txt')]
             for text in [content(name, file).decode()]]
    failed = 0
    for name, command, wanted in cases:
        files = {file: content(name, file) for file in ('job.json', 'image.bin')}
        done = run([command, 'job.json'], files)
        if (done.returncode, done.stdout, done.stderr) != (0, wanted, ''):
            failed += 1
            print(f'{name}, {command}: status {done.returncode}, {difference(done.stdout, wanted)}')
    ends(len(cases), failed)


if __name__ == '__main__':
    main()
