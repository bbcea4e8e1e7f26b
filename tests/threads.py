#!/usr/bin/env python3
"""threads.py PROGRAM [--times N]: `run` of jobs with 1 to 16 workers, each job several times, N times as often.
A report of several workers is another one each time, so each is judged by itself (tests/legal.py): each run
once, rounds and the runs of a worker in order, versions that exist and never fall, and cases, classes, scores
and changes that are those of the entries. Entries in which no repair fired say what `plain` says. With one
worker the report is the same each time. What is learned does not depend on the workers: the first case has the
candidates of the stored reports of tests/jobs. The line of `drill` counts what the report of its plan has.
Where threads can be made, more than one worker takes runs, and a run that goes on adopts versions that come
while it runs. The last line is `N passed, M failed`; the status is 1 where a case failed; the report of such a
case is kept, and its place is told."""
import argparse
import json
import os
import struct
import subprocess
import sys
import tempfile
from concurrent.futures import ThreadPoolExecutor
from typing import NamedTuple

from legal import faults_of
from program import built, ends, run
from report import Report
from showlib.reading import read

HERE = os.path.dirname(os.path.abspath(__file__))
TOP, JOBS, SHOWN = os.path.join(HERE, '..'), os.path.join(HERE, 'jobs'), os.path.join(HERE, 'show', 'data')
# programs of examples/faults that try many repairs, or few
PROGRAMS = 'config', 'grid', 'mixer', 'parcels', 'request'
ENDLESS = 0x7FFFFFFF
# addi x10,x0,0; addi x11,x2,-16; addi x12,x0,8; addi x17,x0,63; ecall; lw x6,-16(x2); lw x7,-12(x2): reads a
# place and a number; again: jalr x1,0(x6); addi x7,x7,-1; blt x0,x7,again: calls the place so often;
# addi x17,x0,93; addi x10,x0,0; ecall: exits; and two places: addi x10,x10,1 or 2; jalr x0,0(x1)
CALLER = [0x00000513, 0xff010593, 0x00800613, 0x03f00893, 0x00000073, 0xff012303, 0xff412383, 0x000300e7,
          0xfff38393, 0xfe704ce3, 0x05d00893, 0x00000513, 0x00000073, 0x00150513, 0x00008067, 0x00250513, 0x00008067]
FIRST, SECOND, NOWHERE = 0x10034, 0x1003c, 0x00002
BREAK, AROUND = [0x00100073], [0x0000006f]  # ebreak; jal x0,0


def flat(words):
    return struct.pack(f'<{len(words)}I', *words)


def content(*parts):
    with open(os.path.join(*parts), 'rb') as stored:
        return stored.read()


def call(place, count=1):
    """The input of CALLER."""
    return struct.pack('<II', place, count).hex()


class Shape(NamedTuple):
    """A job but for its workers, the numbers of workers to run it with, and how often."""
    name: str
    image: bytes
    rounds: list
    workers: tuple = (2, 3, 4, 8, 16)
    times: int = 5
    checks: int = 2
    budget: int = 1000

    def job(self, workers):
        return {'image': 'image.bin', 'workers': workers, 'checks': self.checks, 'budget': self.budget,
                'rounds': [{'mode': mode, 'inputs': inputs} for mode, inputs in self.rounds]}


GOOD, OTHER, BAD, ODD = '24000100', '2c000100', '00000000', '02000100'
ONE_CALL, TWO_SLOTS = content(JOBS, 'bad-call', 'image.bin'), content(JOBS, 'first-repair-fails', 'image.bin')
LOST, FOUND, HALF = '00' * 8, '2800010000000100', '0000000000000100'
SHAPES = [
    Shape('an indirect call', ONE_CALL,
          [('learn', [GOOD, OTHER]), ('live', [BAD] * 8 + [GOOD, ODD, OTHER, BAD] * 4), ('live', [BAD, ODD, GOOD])]),
    Shape('two slots', TWO_SLOTS,
          [('learn', [FOUND, '3000010000000000']), ('live', [LOST, LOST, HALF] * 6), ('live', [LOST, HALF, FOUND, LOST])]),
    Shape('eight checks', ONE_CALL, [('learn', [GOOD, OTHER]), ('live', [BAD, ODD] * 12)], (2, 4), checks=8),
    Shape('more workers than runs', ONE_CALL,
          [('learn', [GOOD]), ('live', [BAD, ODD]), ('live', [BAD, BAD, GOOD])], (8, 16)),
    Shape('rounds of one run', ONE_CALL,
          [('learn', [GOOD]), ('learn', [OTHER])] + [('live', [BAD])] * 5 + [('live', [OTHER])], (2, 8, 16), 2),
    Shape('all runs fail', ONE_CALL,
          [('learn', [BAD, ODD]), ('live', [BAD, ODD] * 12), ('live', [BAD] * 4)], (2, 4, 16), 4),
    Shape('all live runs fail', flat(CALLER),
          [('learn', [call(FIRST, 3)]), ('live', [call(NOWHERE, 2)] * 20)], (2, 4, 16), 4),
    Shape('all runs break', flat(BREAK), [('live', ['']), ('live', [''] * 40)], (2, 16), 4),
    Shape('all runs by budget', flat(AROUND), [('learn', [''] * 5), ('live', [''] * 20)], (2, 4, 16), 4, budget=20_000),
    Shape('many short runs', ONE_CALL,
          [('learn', [GOOD, OTHER] * 20), ('live', [GOOD, BAD, OTHER, ODD] * 50), ('live', [BAD] * 10)], (2, 4, 16), 4),
    Shape('as many runs as a job may have', ONE_CALL,
          [('learn', [GOOD, OTHER] * 12), ('live', [GOOD, BAD, OTHER, ODD] * 250)], (4, 16), 1),
]


def of_job(name, job, image, more=1):
    """The shape of a kept job, each of its live rounds more than once."""
    rounds = [(each['mode'], each['inputs'] * (more if each['mode'] == 'live' else 1)) for each in job['rounds']]
    return Shape(name, image, rounds, (2, 4, 16), 2, job['checks'], job['budget'])


def kept_shapes():
    """Shapes of kept jobs: a program with two faults, and programs in C with one."""
    yield of_job('two faults', json.loads(content(SHOWN, 'three-workers.json')), content(SHOWN, 'three-workers.bin'), 3)
    for name in PROGRAMS:
        job = json.loads(content(TOP, 'examples', 'faults', name, 'job.json'))
        yield of_job(name, job, content(TOP, job['image']), 2)


# a run that goes on while others fail; the repairs come in its time
BESIDE = Shape('a run that goes on beside others', flat(CALLER),
               [('learn', [call(FIRST, 3), call(SECOND, 4)]),
                ('live', [call(FIRST, ENDLESS)] + [call(NOWHERE)] * 8 + [call(SECOND, 9)] * 8)], (2, 4), budget=5_000_000)
TRIES = 12  # of it, until some run has adopted several versions
DRILLS = [(2, 3), (0, 1), (7, 60), (18446744073709551615, 250)]


class Results:
    """Counts cases, and tells those that failed."""

    def __init__(self):
        self.count = self.failed = 0

    def add(self, name, faults, text=None):
        self.count += 1
        if faults:
            self.failed += 1
            kept = ''
            if text is not None:
                with tempfile.NamedTemporaryFile('w', prefix='threads-', suffix='.txt', delete=False) as file:
                    file.write(text)
                kept = f' ({file.name})'
            print(f'{name}: {"; ".join(faults[:3])}{kept}')


def report_of(shape, workers):
    """What `run` writes, and what is wrong where it writes none."""
    files = {'image.bin': shape.image, 'job.json': json.dumps(shape.job(workers)).encode()}
    try:
        done = run(['run', 'job.json'], files)
    except subprocess.TimeoutExpired as error:
        return '', [f'not done in {error.timeout} s']
    return done.stdout, [] if (done.returncode, done.stderr) == (0, '') else [f'status {done.returncode} {done.stderr!r}']


def plain_of(shape):
    """What `plain` says of each input of a shape: end, turns and output."""
    told = {}
    for data in {data for _, inputs in shape.rounds for data in inputs}:
        done = run(['plain', 'image.bin', str(shape.budget), data or 'none'], {'image.bin': shape.image})
        told[data] = [line.partition(' ')[2] for line in done.stdout.splitlines()]
    return told


def against_plain(text, job, plain):
    """The entries in which no repair fired, and which `plain` tells otherwise."""
    inputs = [data for each in job['rounds'] for data in each['inputs']]
    for entry in Report(text).entries:
        told = plain[inputs[int(entry['run'])]]
        if entry['fired'] == '-' and [entry['end'], entry['turns'], entry['output']] != told:
            yield f'entry {entry["entry"]}: `plain` tells {told}'


def judged(shape, workers, plain):
    """A run of the shape: its text and what is wrong with it."""
    text, faults = report_of(shape, workers)
    job = shape.job(workers)
    return text, faults or faults_of(text, job) or list(against_plain(text, job, plain))


def shapes(results, times):
    """Each shape with one worker, twice, and with each number of workers as often as it says."""
    with ThreadPoolExecutor(2) as pool:
        for shape in [*SHAPES, *kept_shapes()]:
            plain = plain_of(shape)
            (text, faults), (again, _) = pool.map(lambda _: judged(shape, 1, plain), range(2))
            results.add(f'{shape.name}, 1 worker', faults if text == again else ['two calls, two reports'], text)
            tries = [workers for workers in shape.workers for _ in range(shape.times * times)]
            for workers, (text, faults) in zip(tries, pool.map(lambda w: judged(shape, w, plain), tries)):
                results.add(f'{shape.name}, {workers} workers', faults, text)


def beside(results):
    """Whether some run adopts a version that came while it ran, and more than one worker takes runs."""
    plain = plain_of(BESIDE)
    for workers in BESIDE.workers:
        several, busy, left = False, 0, TRIES
        while left and not (several and busy > 1):
            text, faults = judged(BESIDE, workers, plain)
            results.add(f'{BESIDE.name}, {workers} workers', faults, text)
            entries = [] if faults else read(text).entries
            several = several or any(len(entry.adopted) > 1 for entry in entries)
            busy = max(busy, len({entry.worker for entry in entries}))
            left -= 1
        results.add(f'{BESIDE.name}, {workers} workers, at the same time',
                    [] if several and busy > 1 else [f'in {TRIES} reports at most {busy} of them took runs, and '
                                                     f'{"some" if several else "no"} run adopted several versions'])


def first_case(name):
    """Of a stored job: the runs before its first case that are learned from, several times over as learn runs, and
    then the run that opened it; and the invariants that are its candidates."""
    job, report = json.loads(content(JOBS, name, 'job.json')), read(content(JOBS, name, 'report.txt').decode())
    case = report.cases[0]
    runs = [(place, each['mode'], data) for place, each in enumerate(job['rounds']) for data in each['inputs']]
    _, _, failing = runs[report.entries[case.opened].run]
    learn = [runs[entry.run][2] for entry in report.entries[:case.opened] if entry.end.sort == 'exit']
    rounds = [('learn', learn * 3), ('learn', learn[::-1] * 2)] if learn else []
    shape = Shape(name, content(JOBS, name, 'image.bin'), rounds + [('live', [failing])], checks=job['checks'], budget=job['budget'])
    return shape, [candidate.invariant for candidate in case.candidates]


def learned(results):
    """What was learned of learn runs alone is the same with 1, 2 and 16 workers, and what the stored report has."""
    for name in sorted(os.listdir(JOBS)):
        shape, wanted = first_case(name)
        numbers = set()
        for workers in (1, 2, 2, 16, 16):
            text, faults = report_of(shape, workers)
            faults = faults or faults_of(text, shape.job(workers))
            if not faults:
                told = read(text)
                numbers.add(told.learned)
                if [[candidate.invariant for candidate in case.candidates] for case in told.cases] != [wanted]:
                    faults = ['its case has other candidates']
                elif len(numbers) > 1:
                    faults = ['another number of invariants']
            results.add(f'{name}, learned by {workers} workers', faults, text)


def drill_inputs(number, count):
    """The live inputs of a drill (docs/FORMATS.md, "The generator of drill")."""
    for _ in range(count):
        number = (number * 6364136223846793005 + 1442695040888963407) % 2 ** 64
        yield (GOOD, OTHER, BAD, ODD)[number >> 62]


def drills(results):
    """The line of `drill` has the counts of the report of its plan."""
    for number, count in DRILLS:
        shape = Shape('drill', ONE_CALL, [('learn', [GOOD, OTHER]), ('live', list(drill_inputs(number, count)))])
        line = run(['drill', str(number), str(count)], {}).stdout
        text, faults = report_of(shape, 1)
        faults = faults or faults_of(text, shape.job(1)) or ([] if line == counts(read(text)) else [f'drill: {line!r}'])
        results.add(f'drill {number} {count}', faults, text)


def counts(report):
    sorts = [entry.end.sort for entry in report.entries]
    return (f'runs {len(sorts)} exits {sorts.count("exit")} failures {sorts.count("failure")} '
            f'budgets {sorts.count("budget")} cases {len(report.cases)} versions {len(report.versions)} '
            f'withdrawals {sum(change.what == "withdraw" for change in report.changes)}\n')


def main():
    parser = argparse.ArgumentParser(description=__doc__, formatter_class=argparse.RawDescriptionHelpFormatter)
    parser.add_argument('program')
    parser.add_argument('--times', type=int, default=1)
    given = parser.parse_args()
    sys.argv[1] = built(given.program)  # that is where `run` looks for it
    results = Results()
    shapes(results, given.times)
    beside(results)
    learned(results)
    drills(results)
    ends(results.count, results.failed)


if __name__ == '__main__':
    main()
