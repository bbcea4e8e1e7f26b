"""Reports that are as large as the format allows. Their lines have the right form; the history is made up."""
import random

KINDS = ('illegal-transfer', 'heap-guard', 'shadow-stack', 'crash-misaligned', 'crash-unreadable', 'crash-unwritable')
# how often one in three runs meets a fault, and how often a repair cures it
FAULTY, CURED, SLOW = 0.6, 0.7, 0.1


class Fault:
    """A fault of the made program: its place, and once it was met its case, failures and repair in charge."""

    def __init__(self, number):
        self.kind = KINDS[number % len(KINDS)]
        self.point = f'{0x10000 + 64 * number:08X}'
        self.case = None
        self.failures = 0
        self.charge = None
        self.opened = None

    def state(self):
        return 'checking' if self.charge is None else f'installed:{self.charge}'

    def lines(self, candidates, repairs):
        """The lines of the case with its candidates and repairs."""
        grade = 'pending' if self.charge is None else 'highly'
        yield (f'case {self.case} {self.kind} {self.point} opened {self.opened} '
               f'checked {min(self.failures - 1, 2)} state {self.state()}')
        for index in range(candidates):
            yield (f'candidate {self.case}.{index} one-of {self.point} x{1 + index % 31} 00000000,{self.point} class '
                   f'{grade if grade == "pending" or index % 8 == 0 else "not"}')
        for index in range(0 if self.charge is None else repairs):
            yield (f'repair {self.case}.{index} candidate {index % candidates // 8 * 8} set x5 {index:08X} wins 0 '
                   f'fails 0 score 1')


class Community:
    """A history that is made run by run: what was written of it so far."""

    def __init__(self, faults, repairs, draw):
        self.faults = [Fault(number) for number in range(faults)]
        self.repairs = repairs
        self.draw = draw
        self.entries, self.versions, self.changes, self.cases = [], ['version 0 entry - patches 0'], [], []

    def version(self):
        """Appends a version that the next entry makes."""
        self.versions.append(f'version {len(self.versions)} entry {len(self.entries)} patches 1')

    def change(self, what, fault):
        self.changes.append(f'{what} entry {len(self.entries)} case {fault.case} repair {fault.charge}')

    def learn(self, run, worker, output):
        self.write(run, worker, 'learn', '-', f'exit:{self.draw.randrange(3)}', output)

    def live(self, run, worker, output):
        """A live run: it is good, or meets a fault, which is new, checked, repaired, or repaired in vain."""
        adopted = f'{len(self.versions) - 1}:{self.draw.randrange(1, 40)}'
        good = f'exit:{self.draw.randrange(3)}'
        if self.draw.random() >= FAULTY:
            self.write(run, worker, 'live', adopted, 'budget' if self.draw.random() < SLOW else good, output)
            return
        fault = self.draw.choice(self.faults)
        fired = '-' if fault.charge is None else f'{fault.case}.{fault.charge}:1'
        if fired != '-' and self.draw.random() < CURED:
            self.write(run, worker, 'live', adopted, good, output, fired=fired)
            return
        self.fail(fault)
        self.write(run, worker, 'live', adopted, f'failure:{fault.kind}:{fault.point}:00000000', output,
                   f'{fault.point},00010000', fired)

    def fail(self, fault):
        """What a failure does: it opens a case, decides it, or has another repair take over."""
        fault.failures += 1
        if fault.case is None:
            fault.case, fault.opened = len(self.cases), len(self.entries)
            self.cases.append(fault)
            self.version()
        elif fault.charge is not None:
            self.change('withdraw', fault)
            fault.charge = (fault.charge + 1) % self.repairs
            self.change('install', fault)
            self.version()
        elif fault.failures == 3:
            fault.charge = 0
            self.change('install', fault)
            self.version()

    def write(self, run, worker, mode, adopted, end, output, sites='-', fired='-'):
        self.entries.append(
            f'entry {len(self.entries)} run {run} worker {worker} mode {mode} adopted {adopted} end {end} turns 1000 '
            f'sites {sites} output {output.hex() or "-"} tally - fired {fired}')


def community(runs=1024, workers=16, faults=64, candidates=64, repairs=64, seed=1, output=None):
    """The text of a report of `runs` runs, a tenth of them learn runs; each case has so many candidates and repairs."""
    draw = random.Random(seed)
    made = Community(faults, repairs, draw)
    learn = max(1, runs // 10)
    for run in range(runs):
        text = output(draw) if output else b'value %d\n' % draw.randrange(100)
        (made.learn if run < learn else made.live)(run, draw.randrange(workers), text)
    lines = ['clearview report 2', f'job workers {workers} checks 2 budget 1000 rounds 2 runs {runs}']
    lines += made.entries + made.versions
    for fault in made.cases:
        lines += fault.lines(candidates, repairs)
    return '\n'.join(lines + made.changes + [f'learned {faults * candidates}', 'end']) + '\n'
