#!/usr/bin/env python3
"""failing_files.py PROGRAM: files that cannot be read, an output that takes nothing, one that nobody
reads, and one that takes so many bytes and no more (docs/FORMATS.md, "Causes and statuses"). The last
line is `N passed, M failed`; the status is 1 where a case failed."""
import os
import resource
import shutil
import subprocess
import sys
import tempfile

from program import HELLO, ends, run

JOB = (b'{"image":"%s","workers":1,"checks":2,"budget":9,"rounds":[{"mode":"learn","inputs":[""]}]}')
FILES = {'p.bin': HELLO, 'source': b'ecall\n', 'job': JOB % b'p.bin', 'folder': None}
UNREAD = (6, '', 'clearview: cannot read\n')
MISSING = (12, '', 'clearview: no such file\n')
UNWRITTEN = (7, 'clearview: cannot write\n')

# words, and the status with what is written
CASES = [
    (['plain', 'none.bin', '9', 'none'], MISSING),
    (['plain', 'folder', '9', 'none'], UNREAD),
    (['plain', 'p.bin/p.bin', '9', 'none'], UNREAD),
    (['plain', 'n' * 4097, '9', 'none'], UNREAD),
    (['asm', 'folder'], UNREAD),
    (['list', 'folder'], UNREAD),
] + [case for command in ('check', 'infer', 'run') for case in [
    ([command, 'none'], MISSING),
    ([command, 'folder'], UNREAD),
    ([command, 'job-of-a-folder'], UNREAD),
    ([command, 'job-of-none'], MISSING),
]]
# words whose text is written to an output that is full
FULL = [['plain', 'p.bin', '9', 'none'], ['check', 'job'], ['infer', 'job'], ['run', 'job'], ['drill', '0', '1'],
        ['asm', 'source'], ['list', 'p.bin']]
JOBS = os.path.join(os.path.dirname(os.path.abspath(__file__)), 'jobs', 'bad-call')
EVERY = 83  # of the lengths of a report, those that are tried


def limited(place, most):
    """Status, error lines and what was written of a job's report, to a file that takes `most` bytes."""
    def limit():
        resource.setrlimit(resource.RLIMIT_FSIZE, (most, most))
    with open(os.path.join(place, 'output'), 'w+b') as output:
        done = subprocess.run([os.path.abspath(sys.argv[1]), 'run', 'job.json'], cwd=place, stdout=output,
                              stderr=subprocess.PIPE, text=True, timeout=60, preexec_fn=limit, restore_signals=False)
        output.seek(0)
        return done.returncode, done.stderr, output.read()


def limits():
    """How many lengths were tried, and what was wrong: the report is written up to the limit, and no further."""
    wrong = []
    with tempfile.TemporaryDirectory() as place:
        for name in ('job.json', 'image.bin'):
            shutil.copy(os.path.join(JOBS, name), place)
        status, line, report = limited(place, 1 << 20)
        lengths = sorted({*range(0, len(report), EVERY), len(report) - 1, len(report)})
        if (status, line) != (0, '') or not report:
            wrong.append(f'an output without a limit: {status}, {line}')
        for most in lengths:
            done = limited(place, most)
            if done != ((0, '') if most == len(report) else UNWRITTEN) + (report[:most],):
                wrong.append(f'an output of {most} bytes: {done}')
    return len(lengths), wrong


def main():
    files = {**FILES, 'job-of-a-folder': JOB % b'folder', 'job-of-none': JOB % b'none.bin'}
    failed = 0
    for words, wanted in CASES:
        done = run(words, files)
        if (done.returncode, done.stdout, done.stderr) != wanted:
            failed += 1
            print(f'{words}: {done}')
    full = FULL if os.path.exists('/dev/full') else []
    for words in full:
        with open('/dev/full', 'wb') as output:
            done = run(words, files, output)
        if (done.returncode, done.stderr) != UNWRITTEN:
            failed += 1
            print(f'{words} to a full output: {done}')
    for words in FULL:
        unread, output = os.pipe()
        os.close(unread)
        done = run(words, files, output)
        os.close(output)
        if (done.returncode, done.stderr) != UNWRITTEN:
            failed += 1
            print(f'{words} to a pipe that nobody reads: {done}')
    tried, wrong = limits()
    for line in wrong:
        print(line)
    ends(len(CASES) + len(full) + len(FULL) + tried, failed + len(wrong))


if __name__ == '__main__':
    main()
