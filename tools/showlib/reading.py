"""Reads a report, strictly: each line has the form of docs/FORMATS.md, "Report", or it is refused by its place.

Every line is looked at once, so the time grows with the length of the text."""
import re

from .model import (Action, Candidate, Case, Change, End, Entry, Fired, Invariant, Job, Repair, Report,
                    Version)

KINDS = ('illegal-transfer', 'heap-guard', 'shadow-stack', 'crash-illegal', 'crash-break', 'crash-deep',
         'crash-misaligned', 'crash-unreadable', 'crash-code', 'crash-unwritable')
GRADES = ('highly', 'moderately', 'slightly', 'not', 'pending')

NUMBER = re.compile(r'0|[1-9][0-9]{0,19}', re.ASCII)
SCORE = re.compile(r'0|-?[1-9][0-9]{0,19}', re.ASCII)
ADDRESS = re.compile(r'[0-9A-F]{8}')
REGISTER = re.compile(r'x([1-9]|[12][0-9]|3[01])', re.ASCII)
BYTES = re.compile(r'-|(?:[0-9a-f]{2})+')
TALLY = re.compile(r'-|{0}(?:,{0})*'.format(r'[0-9]{1,20}\.[0-9]{1,20}:[0-9]{1,20}:[0-9]{1,20}:(?:held|failed)'))
FIRED = re.compile(r'-|{0}(?:,{0})*'.format(r'[0-9]{1,20}\.[0-9]{1,20}:[0-9]{1,20}'))
ADOPTED = re.compile(r'-|{0}(?:,{0})*'.format(r'[0-9]{1,20}:[0-9]{1,20}'))
ADDRESSES = re.compile(r'-|[0-9A-F]{8}(?:,[0-9A-F]{8})*')


class NotReport(Exception):
    """The text is no report: the line (from 1) where that shows, and what is wrong there."""

    def __init__(self, line, why):
        super().__init__(f'line {line}: {why}')
        self.line = line
        self.why = why


def brief(text):
    """The text in quotes, cut where it is long."""
    return repr(text if len(text) <= 40 else text[:40] + '...')


class Fields:
    """The words of one line, taken from the left; each that is not as it should be is refused by name."""

    def __init__(self, line, text):
        self.line = line
        self.words = text.split(' ')
        self.at = 0

    def refuse(self, why):
        raise NotReport(self.line, why)

    def word(self, name):
        if self.at == len(self.words):
            self.refuse(f'the line ends before its {name}')
        self.at += 1
        return self.words[self.at - 1]

    def key(self, key):
        if self.at < len(self.words) and self.words[self.at] == key:
            self.at += 1
            return
        word = self.word(f'word `{key}`')
        self.refuse(f'{brief(word)} stands where `{key}` should')

    def matches(self, name, form, what):
        word = self.word(name)
        found = form.fullmatch(word)
        if not found:
            self.refuse(f'{name}: {brief(word)} is no {what}')
        return word

    def number(self, name, below=None):
        """A decimal number, less than `below` where that is given."""
        value = int(self.matches(name, NUMBER, 'number'))
        if below is not None and value >= below:
            self.refuse(f'{name}: {value} is past the last one, {below - 1}' if below else f'{name}: there is none')
        return value

    def counted(self, name, expected):
        """A number that has to be the next one of its list."""
        value = self.number(name)
        if value != expected:
            self.refuse(f'{name} {value} stands where {name} {expected} should')

    def address(self, name):
        return int(self.matches(name, ADDRESS, 'address of eight digits 0-9, A-F'), 16)

    def addresses(self, name):
        word = self.matches(name, ADDRESSES, 'list of addresses')
        return [] if word == '-' else [int(part, 16) for part in word.split(',')]

    def register(self, name):
        return int(self.matches(name, REGISTER, 'register')[1:])

    def choice(self, name, words):
        word = self.word(name)
        if word not in words:
            self.refuse(f'{name}: {brief(word)} is none of {", ".join(words)}')
        return word

    def pair(self, name, first, second):
        """`A.B` with both numbers as they are expected; `second` None leaves the second one open."""
        word = self.word(name)
        left, dot, right = word.partition('.')
        if not (dot and NUMBER.fullmatch(left) and NUMBER.fullmatch(right)):
            self.refuse(f'{name}: {brief(word)} is no CASE.INDEX')
        if int(left) != first or int(right) != second:
            self.refuse(f'{name} {word} stands where {name} {first}.{second} should')

    def done(self):
        if self.at != len(self.words):
            self.refuse(f'{brief(" ".join(self.words[self.at:]))} stands behind the end of the line')


def lists(word):
    """The parts of a list; none of `-`."""
    return [] if word == '-' else word.split(',')


def end_of(fields):
    word = fields.word('end')
    parts = word.split(':')
    if word == 'budget':
        return End('budget')
    if parts[0] == 'exit' and len(parts) == 2 and NUMBER.fullmatch(parts[1]):
        return End('exit', code=int(parts[1]))
    if parts[0] == 'failure' and len(parts) == 4 and parts[1] in KINDS and all(map(ADDRESS.fullmatch, parts[2:])):
        return End('failure', kind=parts[1], pc=int(parts[2], 16), detail=int(parts[3], 16))
    return fields.refuse(f'end: {brief(word)} is no end of a run')


def entry_of(fields, number, job):
    """The rest of an entry's line, behind the word `entry`."""
    fields.counted('entry', number)
    fields.key('run')
    run = fields.number('run', job.runs)
    fields.key('worker')
    worker = fields.number('worker', job.workers)
    fields.key('mode')
    mode = fields.choice('mode', ('learn', 'live'))
    fields.key('adopted')
    adopted = [tuple(map(int, row.split(':')))
               for row in lists(fields.matches('adopted', ADOPTED, 'list of VERSION:ENTRIES'))]
    fields.key('end')
    end = end_of(fields)
    fields.key('turns')
    turns = fields.number('turns')
    fields.key('sites')
    sites = fields.addresses('sites')
    fields.key('output')
    word = fields.matches('output', BYTES, 'bytes')
    output = b'' if word == '-' else bytes.fromhex(word)
    fields.key('tally')
    tally = fields.matches('tally', TALLY, 'list of CASE.INDEX:CHECKS:VIOLATIONS:LAST')
    fields.key('fired')
    fired = []
    for row in lists(fields.matches('fired', FIRED, 'list of CASE.INDEX:COUNT')):
        name, count = row.split(':')
        case, index = name.split('.')
        fired.append(Fired(int(case), int(index), int(count)))
    fields.done()
    return Entry(number, run, worker, mode, adopted, end, turns, sites, output, tally, fired)


def version_of(fields, number, entries):
    fields.counted('version', number)
    fields.key('entry')
    if number == 0:
        fields.key('-')
        entry = None
    else:
        entry = fields.number('entry', entries)
    fields.key('patches')
    patches = fields.number('patches')
    fields.done()
    return Version(number, entry, patches)


def case_of(fields, number, entries):
    fields.counted('case', number)
    kind = fields.choice('kind', KINDS)
    pc = fields.address('pc')
    fields.key('opened')
    opened = fields.number('opened', entries)
    fields.key('checked')
    checked = fields.number('checked')
    fields.key('state')
    state = fields.word('state')
    fields.done()
    sort, colon, repair = state.partition(':')
    if colon and sort == 'installed' and NUMBER.fullmatch(repair):
        return Case(number, kind, pc, opened, checked, sort, int(repair))
    if state not in ('checking', 'dropped'):
        fields.refuse(f'state: {brief(state)} is none of checking, installed:REPAIR, dropped')
    return Case(number, kind, pc, opened, checked, state, None)


def invariant_of(fields):
    sort = fields.choice('invariant', ('one-of', 'lower', 'less-than', 'sp-offset'))
    point = fields.address('point')
    if sort == 'one-of':
        return Invariant(sort, point, (fields.register('register'),), tuple(fields.addresses('values')))
    if sort == 'lower':
        return Invariant(sort, point, (fields.register('register'),), (fields.address('bound'),))
    if sort == 'less-than':
        return Invariant(sort, point, (fields.register('register'), fields.register('register')), ())
    return Invariant(sort, point, (), (fields.address('offset'),))


def candidate_of(fields, case):
    index = len(case.candidates)
    fields.pair('candidate', case.number, index)
    invariant = invariant_of(fields)
    fields.key('class')
    grade = fields.choice('class', GRADES)
    fields.done()
    return Candidate(case.number, index, invariant, grade)


def action_of(fields):
    sort = fields.choice('action', ('set', 'copy', 'set-sp', 'skip', 'return'))
    if sort == 'set':
        return Action(sort, (fields.register('register'),), fields.address('value'))
    if sort == 'copy':
        return Action(sort, (fields.register('register'), fields.register('register')))
    if sort == 'skip':
        return Action(sort, ())
    return Action(sort, (), fields.address('offset'))


def repair_of(fields, case):
    index = len(case.repairs)
    fields.pair('repair', case.number, index)
    fields.key('candidate')
    candidate = fields.number('candidate', len(case.candidates))
    action = action_of(fields)
    fields.key('wins')
    wins = fields.number('wins')
    fields.key('fails')
    fails = fields.number('fails')
    fields.key('score')
    score = int(fields.matches('score', SCORE, 'score'))
    fields.done()
    return Repair(case.number, index, candidate, action, wins, fails, score)


def change_of(fields, what, report):
    fields.key('entry')
    entry = fields.number('entry', len(report.entries))
    fields.key('case')
    case = fields.number('case', len(report.cases))
    fields.key('repair')
    repair = fields.number('repair', len(report.cases[case].repairs))
    fields.done()
    if report.changes and report.changes[-1].entry > entry:
        fields.refuse(f'a change of entry {entry} stands behind one of entry {report.changes[-1].entry}')
    return Change(what, entry, case, repair)


# which first words may follow a line that begins with one
FOLLOWS = {
    'job': ('entry', 'version'),
    'entry': ('entry', 'version'),
    'version': ('version', 'case', 'learned'),
    'case': ('candidate', 'repair', 'case', 'withdraw', 'install', 'learned'),
    'candidate': ('candidate', 'repair', 'case', 'withdraw', 'install', 'learned'),
    'repair': ('repair', 'case', 'withdraw', 'install', 'learned'),
    'withdraw': ('install',),
    'install': ('withdraw', 'install', 'learned'),
    'learned': ('end',),
    'end': (),
}


def job_of(fields):
    fields.key('job')
    numbers = []
    for key in ('workers', 'checks', 'budget', 'rounds', 'runs'):
        fields.key(key)
        numbers.append(fields.number(key))
    fields.done()
    return Job(*numbers)


def take(word, fields, report):
    """Adds what the line says, whose first word was taken, to the report."""
    if word == 'entry':
        report.entries.append(entry_of(fields, len(report.entries), report.job))
    elif word == 'version':
        report.versions.append(version_of(fields, len(report.versions), len(report.entries)))
    elif word == 'case':
        case = case_of(fields, len(report.cases), len(report.entries))
        report.cases.append(case)
        if (case.kind, case.pc) in report.case_of:
            fields.refuse(f'case {report.case_of[case.kind, case.pc]} has the same failure')
        report.case_of[case.kind, case.pc] = case.number
        opening = report.entries[case.opened]
        if opening.mode != 'live' or (opening.end.kind, opening.end.pc) != (case.kind, case.pc):
            fields.refuse(f'opened: entry {case.opened} did not fail like this')
    elif word == 'candidate':
        report.cases[-1].candidates.append(candidate_of(fields, report.cases[-1]))
    elif word == 'repair':
        report.cases[-1].repairs.append(repair_of(fields, report.cases[-1]))
    elif word in ('withdraw', 'install'):
        report.changes.append(change_of(fields, word, report))
    elif word == 'learned':
        report.learned = fields.number('learned')
        fields.done()
    else:
        fields.done()


def read(text):
    """The report that the text is. Raises NotReport with the first place where it is none."""
    if not text:
        raise NotReport(1, 'the file is empty')
    lines = text.split('\n')
    if lines[0] not in ('clearview report 1', 'clearview report 2'):
        raise NotReport(1, f'{brief(lines[0])} is not the first line of a report, `clearview report 1` or 2')
    if lines[-1] != '':
        raise NotReport(len(lines), 'the last line has no line feed: the report was cut')
    lines.pop()
    if len(lines) < 2:
        raise NotReport(2, 'the report stops before its job line')
    report = Report(int(lines[0][-1]), job_of(Fields(2, lines[1])))
    last = 'job'
    for number, line in enumerate(lines[2:], 3):
        fields = Fields(number, line)
        word = fields.word('first word')
        if word not in FOLLOWS[last]:
            wanted = ' or '.join(f'`{each}`' for each in FOLLOWS[last]) or 'nothing'
            raise NotReport(number, f'{brief(word)} stands where {wanted} should, behind a line `{last}`')
        take(word, fields, report)
        last = word
    if last != 'end':
        raise NotReport(len(lines) + 1, f'the report stops behind a line `{last}`, before its line `end`: it was cut')
    refer(report)
    return report


def refer(report):
    """Looks up what lines name that stand further down: versions, cases, candidates and repairs."""
    line = 3
    for entry in report.entries:
        for version, _ in entry.adopted:
            if version >= len(report.versions):
                raise NotReport(line, f'adopted: there is no version {version}')
        for fired in entry.fired:
            if fired.case >= len(report.cases) or fired.index >= len(report.cases[fired.case].repairs):
                raise NotReport(line, f'fired: there is no repair {fired.case}.{fired.index}')
        line += 1
    line += len(report.versions)
    for case in report.cases:
        if case.installed is not None and case.installed >= len(case.repairs):
            raise NotReport(line, f'state: there is no repair {case.number}.{case.installed}')
        line += 1 + len(case.candidates) + len(case.repairs)
