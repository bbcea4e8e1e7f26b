"""What every report of a job has to be, whoever took which run and when: docs/REPAIR.md, "Legal histories",
and what is told of the entries behind them. It is read off the report and its job alone; what a run does
under its versions is not run again here. The reader is that of tools/show.

`faults_of(text, job)` says in plain words what is wrong, nothing where nothing is."""
import os
import sys

sys.path.insert(0, os.path.join(os.path.dirname(os.path.abspath(__file__)), '..', 'tools'))
from showlib.facts import newest_versions  # noqa: E402
from showlib.model import OUTPUT_LIMIT     # noqa: E402
from showlib.reading import NotReport, read  # noqa: E402

CASES, SITES, STRAIGHT = 64, 4, 64  # cases at most, sites at most, turns up to the next block entry at most


def faults_of(text, job):
    """What is wrong with a report of the job, a dictionary as in docs/FORMATS.md, "Job"."""
    try:
        report = read(text)
    except NotReport as error:
        return [str(error)]
    runs = [(place, each['mode'], data.lower()) for place, each in enumerate(job['rounds']) for data in each['inputs']]
    wanted = job['workers'], job['checks'], job['budget'], len(job['rounds']), len(runs)
    if tuple(report.job) != wanted:
        return [f'the job line says {tuple(report.job)}, the job is {wanted}']
    found = of_runs(report, runs)
    return found or [*of_versions(report, runs), *of_entries(report, runs), *Told(report).faults()]


def of_runs(report, runs):
    """Each run once, in its mode; rounds in order; the runs of one worker rise."""
    found, seen, last, waiting = [], set(), {}, [0] * report.job.rounds
    for place, _, _ in runs:
        waiting[place] += 1
    for entry in report.entries:
        place, mode, _ = runs[entry.run]
        name = f'entry {entry.number}'
        if entry.run in seen:
            found.append(f'{name}: run {entry.run} has an entry before')
        if entry.mode != mode:
            found.append(f'{name}: run {entry.run} is {mode}')
        if any(waiting[:place]):
            found.append(f'{name}: it is of round {place}, and an earlier round waits for a run')
        if last.get(entry.worker, -1) >= entry.run:
            found.append(f'{name}: worker {entry.worker} took run {last[entry.worker]} before')
        waiting[place] -= entry.run not in seen
        seen.add(entry.run)
        last[entry.worker] = entry.run
    return found + [f'run {run} has no entry' for run in range(len(runs)) if run not in seen]


def of_versions(report, runs):
    """Versions rise within a run; each is at least the newest after the worker's last entry and after earlier
    rounds, and at most the newest before the entry. A learn run has none."""
    found, newest, after_worker, after_round = [], newest_versions(report), {}, [0] * report.job.rounds
    for entry in report.entries:
        place, _, _ = runs[entry.run]
        least = max([after_worker.get(entry.worker, 0), *after_round[:place]])
        most = newest[entry.number - 1] if entry.number else 0
        versions, counts = [version for version, _ in entry.adopted], [count for _, count in entry.adopted]
        name = f'entry {entry.number}'
        if (entry.mode == 'live') != bool(versions) or not all(counts):
            found.append(f'{name}: a learn run adopts nothing, a live run something, and no row counts nothing')
        if any(first >= second for first, second in zip(versions, versions[1:])):
            found.append(f'{name}: its versions {versions} do not rise')
        if any(version < least for version in versions):
            found.append(f'{name}: it adopts {min(versions)}, and its worker or an earlier round had {least}')
        if any(version > most for version in versions):
            found.append(f'{name}: it adopts {max(versions)}, and {most} was the newest before it')
        if versions and not (entry.turns + STRAIGHT - 1) // STRAIGHT <= sum(counts) <= entry.turns:
            found.append(f'{name}: {sum(counts)} block entries in {entry.turns} turns')
        after_worker[entry.worker] = after_round[place] = newest[entry.number]
    return found


def of_entries(report, runs):
    """What an entry says agrees with itself, with the entries of its input under the same versions, and, where
    no repair fired, with all such entries of its input: these are the plain run's."""
    alike = {}
    for entry in report.entries:
        name, data = f'entry {entry.number}', runs[entry.run][2]
        failed = entry.end.sort == 'failure'
        if not 1 <= entry.turns <= report.job.budget or entry.end.sort == 'budget' and entry.turns != report.job.budget:
            yield f'{name}: {entry.turns} turns'
        if len(entry.output) > OUTPUT_LIMIT:
            yield f'{name}: {len(entry.output)} bytes of output'
        if entry.sites[:1] != ([entry.end.pc] if failed else []) or len(entry.sites) > SITES:
            yield f'{name}: its sites are not those of its end'
        done = entry.end, entry.turns, entry.sites, entry.output
        whole = *done, entry.tally_text, entry.fired
        keys = [((data, entry.mode, tuple(entry.adopted)), whole, 'under the same versions')]
        if not entry.fired:
            keys.append((data, done, 'in which no repair fired either'))
        for key, value, words in keys:
            number, first = alike.setdefault(key, (entry.number, value))
            if first != value:
                yield f'{name}: entry {number} has its input, {words}, and another end'


class Told:
    """What the lines behind the entries have to say, worked out from the entries and from the lists of
    candidates and repairs: cases, checked failures, classes, wins, fails, changes and versions."""

    def __init__(self, report):
        self.report = report
        self.opened = []      # by case: kind, pc and entry
        self.checked = []     # by case: the entries of its checked failures, as many as there are checks at most
        self.installed = {}   # by case: the repair
        self.dropped = set()
        self.counts = {}      # by case and repair: wins and fails
        self.changes = []     # as the report has them: what, entry, case, repair
        self.tables = [{}]    # by version: for each case the repair that is enforced, or None where it is checked
        self.makers = [None]  # by version: its entry
        self.wrong = []
        for entry in report.entries:
            self.post(entry)

    def post(self, entry):
        """What one entry more makes of it all."""
        under = [self.tables[version] for version, _ in entry.adopted if version < len(self.tables)]
        last = under[-1] if under else {}
        self.rows(entry, under)
        case = self.case_with(entry)
        due = self.count(entry, {(case, last[case])} if last.get(case) is not None else set())
        if entry.mode == 'live' and entry.end.sort == 'failure' and case is None and len(self.opened) < CASES:
            self.open(entry)
        elif case in last and last[case] is None and len(self.checked[case]) < self.report.job.checks:
            self.checked[case].append(entry)
            if len(self.checked[case]) == self.report.job.checks:
                due.add(case)
        self.choose(entry.number, due)
        self.make(entry.number)

    def rows(self, entry, under):
        """The rows of an entry are in order, each of a patch of a table that it adopted."""
        tally = [] if entry.tally_text == '-' else [tuple(map(int, row.split(':')[0].split('.')))
                                                    for row in entry.tally_text.split(',')]
        fired = [(row.case, row.index) for row in entry.fired]
        right = (all(any(case in table and table[case] is None for table in under) for case, _ in tally)
                 and all(any(table.get(case) == repair for table in under) for case, repair in fired))
        if not right or tally != sorted(set(tally)) or fired != sorted(set(fired)):
            self.wrong.append(f'entry {entry.number}: rows out of order, or of no patch of its versions')

    def case_with(self, entry):
        """The case of a live failure, or None."""
        failures = [(kind, pc) for kind, pc, _ in self.opened]
        failure = (entry.end.kind, entry.end.pc) if entry.mode == 'live' and entry.end.sort == 'failure' else None
        return failures.index(failure) if failure in failures else None

    def count(self, entry, in_charge):
        """Counts wins and fails of the repairs that fired, and of the one that failed its own case; the cases
        whose installed repair has a fail."""
        due, failed = set(), entry.end.sort == 'failure'
        for case, repair in {(row.case, row.index) for row in entry.fired} | in_charge:
            wins, fails = self.counts.get((case, repair), (0, 0))
            self.counts[case, repair] = wins + (entry.end.sort == 'exit'), fails + failed
            if failed and self.installed.get(case) == repair:
                due.add(case)
        return due

    def open(self, entry):
        case = len(self.opened)
        self.opened.append((entry.end.kind, entry.end.pc, entry.number))
        self.checked.append([])
        if not self.listed(case, 'candidates'):
            self.dropped.add(case)

    def listed(self, case, what):
        """The candidates or the repairs that the report lists of a case."""
        return getattr(self.report.cases[case], what) if case < len(self.report.cases) else []

    def choose(self, number, due):
        """Installs the best repairs of the cases that are due; a case without repairs is dropped."""
        for case in sorted(due):
            scores = [self.score(case, index) for index, _ in enumerate(self.listed(case, 'repairs'))]
            best, old = scores.index(max(scores)) if scores else None, self.installed.get(case)
            if best is None:
                self.dropped.add(case)
            elif best != old:
                self.changes += [] if old is None else [('withdraw', number, case, old)]
                self.changes.append(('install', number, case, best))
                self.installed[case] = best

    def score(self, case, repair):
        wins, fails = self.counts.get((case, repair), (0, 0))
        return wins - fails + (not fails)

    def make(self, number):
        """The table behind an entry: a version where it differs from the newest one."""
        now = {case: self.installed.get(case) for case in range(len(self.opened)) if case not in self.dropped}
        if now != self.tables[-1]:
            self.tables.append(now)
            self.makers.append(number)

    def state(self, case):
        return 'dropped' if case in self.dropped else 'installed' if case in self.installed else 'checking'

    def grade(self, case, index):
        """The class of a candidate, from the checked failures."""
        if len(self.checked[case]) < self.report.job.checks:
            return 'pending'
        rows = [next((row for row in entry.tally(case) if row.index == index), None) for entry in self.checked[case]]
        violations = [row.violations if row else 0 for row in rows]
        if all(row and row.failed_last for row in rows):
            return 'highly' if max(violations) == 1 else 'moderately'
        return 'slightly' if any(violations) else 'not'

    def faults(self):
        """Where the lines behind the entries say something else."""
        yield from self.wrong
        report = self.report
        sizes = [sum(len(self.listed(case, 'candidates')) if repair is None else 1 for case, repair in table.items())
                 for table in self.tables]
        if [tuple(version)[1:] for version in report.versions] != list(zip(self.makers, sizes)):
            yield f'the versions are, by entry and patches, {list(zip(self.makers, sizes))}'
        if [tuple(change) for change in report.changes] != self.changes:
            yield f'the changes are {self.changes}'
        if [(case.kind, case.pc, case.opened) for case in report.cases] != self.opened:
            yield f'the cases are, by kind, pc and entry, {self.opened}'
            return
        for case in report.cases:
            yield from self.of_case(case)

    def of_case(self, case):
        number, name = case.number, f'case {case.number}'
        state = len(self.checked[number]), self.state(number), self.installed.get(number)
        if (case.checked, case.state, case.installed) != state:
            yield f'{name}: checked, state and repair are {state}'
        for candidate in case.candidates:
            if candidate.grade != self.grade(number, candidate.index):
                yield f'{name}: candidate {candidate.index} is {self.grade(number, candidate.index)}'
        chosen = next((grade for grade in ('highly', 'moderately') if any(c.grade == grade for c in case.candidates)), None)
        wanted = [c.index for c in case.candidates if chosen and c.grade == chosen]
        if list(dict.fromkeys(repair.candidate for repair in case.repairs)) != wanted:
            yield f'{name}: its repairs are those of the candidates {wanted}'
        for repair in case.repairs:
            counts = *self.counts.get((number, repair.index), (0, 0)), self.score(number, repair.index)
            if (repair.wins, repair.fails, repair.score) != counts:
                yield f'{name}: wins, fails and score of repair {repair.index} are {counts}'
