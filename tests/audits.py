#!/usr/bin/env python3
"""audits.py PROGRAM [--edits N] [--seed S]: what `audit` says of reports (docs/REPAIR.md, "Audit"). The
stored reports of tests/jobs, which come from outside, are sound, and so is each report that `run` writes
with 1 to 16 workers. Lines of the worked example that were changed are told by their entry and clause, or
by the run that is missing. N reports of each job with one place changed (a byte, a digit, a line dropped,
doubled or moved) are never accepted as sound with the same text: what is answered has one of the forms of
docs/FORMATS.md. The last line is `N passed, M failed`; the status is 1 where a case failed."""
import argparse
import json
import os
import random
import re
import sys
import tempfile
from concurrent.futures import ThreadPoolExecutor

from program import built, ends, run

JOBS = os.path.join(os.path.dirname(os.path.abspath(__file__)), 'jobs')
SAME = 'sound\ntext same\n'
JUDGED = re.compile(r'sound\ntext (same|differs)\n|wrong entry \d+ clause [1-7]\n|missing run \d+\n')
REFUSED = re.compile(r'clearview: report refused: (not-report|old-report|bad-entry \d+)\n')
LAST = 'entry 5 run 5 worker 0 mode live adopted 2:4 end exit:7 turns 11 sites - output - tally - fired 0.0:1'

# of the worked example: what is changed, and what is found
CHANGED = [
    (LAST, LAST.replace('exit:7', 'exit:9'), 'wrong entry 5 clause 4\n'),
    (LAST, LAST.replace('2:4', '1:4'), 'wrong entry 5 clause 6\n'),
    (LAST, LAST.replace('2:4', '3:4'), 'wrong entry 5 clause 7\n'),
    (LAST, LAST.replace('2:4', '2:4,2:0'), 'wrong entry 5 clause 4\n'),
    (LAST, LAST.replace('run 5', 'run 4'), 'wrong entry 5 clause 1\n'),
    (LAST, LAST.replace('run 5', 'run 6'), 'wrong entry 5 clause 4\n'),
    (LAST, LAST.replace('mode live', 'mode learn'), 'wrong entry 5 clause 4\n'),
    (LAST + '\n', '', 'missing run 5\n'),
    ('score 2', 'score 3', 'sound\ntext differs\n'),
    ('job workers 1', 'job workers 2', 'sound\ntext differs\n'),
]
# the same, and the line on standard error
UNREAD = [
    ('clearview report 2', 'clearview report 1', 'old-report'),
    ('clearview report 2', 'clearview report 3', 'not-report'),
    (LAST, LAST.replace('turns 11', 'turns 011'), 'bad-entry 5'),
    (LAST, LAST.replace('entry 5', 'entry 6'), 'bad-entry 5'),
]


def content(name, file):
    with open(os.path.join(JOBS, name, file), 'rb') as stored:
        return stored.read()


def files_of(name, workers=None):
    """The files of a stored job, with another number of workers."""
    job = json.loads(content(name, 'job.json'))
    if workers:
        job['workers'] = workers
    return {'job.json': json.dumps(job).encode(), 'image.bin': content(name, 'image.bin')}


def audit(files, report):
    """Status, output and error lines of the judge."""
    done = run(['audit', 'job.json', 'report.txt'], {**files, 'report.txt': report.encode('latin-1')})
    return done.returncode, done.stdout, done.stderr


def edited(report, rng):
    """A report with one place changed."""
    while True:
        kind = rng.randrange(6)
        lines = report.split('\n')
        at = rng.randrange(len(lines) - 1)
        if kind == 0:
            other = lines[:at] + lines[at + 1:]
        elif kind == 1:
            other = lines[:at] + [lines[at]] + lines[at:]
        elif kind == 2:
            other = lines[:at] + lines[at + 1:at + 2] + [lines[at]] + lines[at + 2:]
        else:
            place = rng.randrange(len(report))
            pool = '0123456789' if kind < 5 and report[place].isdigit() else ''.join(map(chr, range(10, 127)))
            other = [report[:place] + rng.choice(pool) + report[place + 1:]]
        text = '\n'.join(other)
        if text != report:
            return text


def is_caught(answer):
    status, output, error = answer
    if status == 0:
        return bool(JUDGED.fullmatch(output)) and output != SAME and error == ''
    return status == 9 and output == '' and bool(REFUSED.fullmatch(error))


def main():
    words = argparse.ArgumentParser(description=__doc__.split('\n', 1)[0])
    words.add_argument('program')
    words.add_argument('--edits', type=int, default=40)
    words.add_argument('--seed', type=int, default=1)
    asked = words.parse_args()
    sys.argv[1] = built(asked.program)
    rng = random.Random(asked.seed)

    cases = []  # what is judged, its files and report, the test of the answer
    for name in sorted(os.listdir(JOBS)):
        stored = content(name, 'report.txt').decode()
        cases.append((f'{name}, stored', files_of(name), stored, lambda answer: answer == (0, SAME, '')))
    example = content('bad-call', 'report.txt').decode()
    for old, new, found in CHANGED:
        assert old in example, old
        cases.append((f'worked example, {new or "a line dropped"}', files_of('bad-call'), example.replace(old, new, 1),
                      lambda answer, found=found: answer == (0, found, '')))
    for old, new, fault in UNREAD:
        assert old in example, old
        line = f'clearview: report refused: {fault}\n'
        cases.append((f'worked example, {new}', files_of('bad-call'), example.replace(old, new, 1),
                      lambda answer, line=line: answer == (9, '', line)))
    cases.append(('an empty report', files_of('bad-call'), '',
                  lambda answer: answer == (9, '', 'clearview: report refused: not-report\n')))
    for name in ('bad-call', 'first-repair-fails', 'good-runs-learned', 'once-and-twice'):
        for workers in (1, 2, 3, 4, 8, 16):
            files = files_of(name, workers)
            done = run(['run', 'job.json'], files)
            cases.append((f'{name}, {workers} workers: {done.stderr}', files, done.stdout,
                          lambda answer: answer == (0, SAME, '')))
            for count in range(asked.edits if workers in (1, 4) else 0):
                cases.append((f'{name}, {workers} workers, edit {count}', files, edited(done.stdout, rng), is_caught))

    failed = 0
    with ThreadPoolExecutor(os.cpu_count()) as pool:
        answers = pool.map(lambda case: audit(case[1], case[2]), cases)
        for (what, _, report, passes), answer in zip(cases, answers):
            if not passes(answer):
                failed += 1
                with tempfile.NamedTemporaryFile('w', prefix='audits-', suffix='.txt', delete=False, encoding='latin-1') as kept:
                    kept.write(report)
                print(f'{what}: {answer}; the report is {kept.name}')
    ends(len(cases), failed)


if __name__ == '__main__':
    main()
