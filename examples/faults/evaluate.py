#!/usr/bin/env python3
"""evaluate.py [--write | --check | --jobs] [--level O1]... [NAME...]: what `clearview run` makes of the
programs of this folder, from its own reports; the numbers of docs/EVALUATION.md.

For each program, level of optimisation and set of learn inputs (few: the first 2; many: all 12; at -O1 also
the first 1, 4 and 8) one job is run: a learn round; a live round with the failing inputs; one with the good
inputs, none of which is in the learn round; one with the failing inputs again. What a run should print is what
the program built with -DFIXED prints.

Without an option the rows are printed. `--write` puts them into the page, `--check` says whether the page
has them; where there is no addr2line, the source lines are left out of the comparison. `--jobs` runs
nothing and writes each program's job.json: -O1, many learn inputs. The program is ./clearview, or what
CLEARVIEW names."""
import argparse
import json
import os
import subprocess
import sys
import tempfile
from concurrent.futures import ThreadPoolExecutor

HERE = os.path.dirname(os.path.abspath(__file__))
TOP = os.path.abspath(os.path.join(HERE, '..', '..'))
sys.path.insert(0, os.path.join(TOP, 'tools'))
import make_job  # noqa: E402
import report    # noqa: E402

PAGE = os.path.join(TOP, 'docs', 'EVALUATION.md')
BEGIN, END = '<!-- made by examples/faults/evaluate.py: begin -->\n', '<!-- end -->\n'
LEVELS = 'O0', 'O1', 'O2', 'O3', 'Os'
CHECKS, BUDGET = 2, 100_000
SETS = {'few': 2, 'many': 12}
NUMBERS, NUMBERS_LEVEL = (1, 2, 4, 8, 12), 'O1'
HEAD = ['program', 'level', 'learn', 'stopped by, at', 'failures before a repair', 'tried, withdrawn',
        'later failing inputs: exit, right', 'good inputs changed', 'turns lost, turns then']


def programs():
    return sorted(name for name in os.listdir(HERE) if os.path.isfile(os.path.join(HERE, name, name + '.c')))


def inputs(name, kind):
    return [digits for _, digits in make_job.inputs_of([os.path.join(HERE, name, kind)], False)]


def job_of(name, level, learn):
    """The job of a program at a level with learn inputs."""
    failing, good = inputs(name, 'failing'), inputs(name, 'good')
    rounds = [('learn', learn), ('live', failing), ('live', good), ('live', failing)]
    return make_job.make(image_of(name, level), rounds, 1, CHECKS, BUDGET)


def run(job):
    """The report of a job."""
    image = job['image']
    with tempfile.NamedTemporaryFile('w', suffix='.json') as file:
        json.dump(job, file)
        file.flush()
        done = subprocess.run([os.environ.get('CLEARVIEW', './clearview'), 'run', file.name], cwd=TOP,
                              capture_output=True, text=True, timeout=600)
    if done.returncode:
        raise RuntimeError(f'{image}: status {done.returncode} {done.stderr}')
    return report.Report(done.stdout)


def image_of(name, level):
    return os.path.join('examples', 'faults', name, level + '.elf')


def stops(image, told):
    """Which monitors opened a case, and the source lines where they did: with the caller's where the
    failure is in the library. An address stands where no line is known."""
    found = []
    for case in told.cases:
        sites = told.entries[case['opened']]['sites'].split(',')
        known = report.places(os.path.join(TOP, image), sites)
        lines = [line for site in sites for line, _ in known.get(site, [(site, '')])]
        last = next((place for place, line in enumerate(lines) if not line.startswith('library.c')), len(lines) - 1)
        found.append(f'{case["kind"]} {" of ".join(lines[:last + 1])}')
    return found


class Result:
    """What the page tells of one job."""

    def __init__(self, name, level, learn, wanted):
        failing, good = inputs(name, 'failing'), inputs(name, 'good')
        image = image_of(name, level)
        told = run(job_of(name, level, learn))
        live = told.entries[len(learn):]
        first, middle, second = live[:len(failing)], live[len(failing):-len(failing)], live[-len(failing):]
        expected = [wanted[value] for value in failing + good + failing]
        self.stops = stops(image, told)
        self.stopped = bool(told.cases)
        if not self.stopped:
            ends = ['hangs' if entry['end'] == 'budget' else 'goes on' for entry in first]
            self.stops = [f'nothing: {", ".join(sorted(set(ends)))}']
        self.installed = min(told.installs, default=None)
        self.failures = None if self.installed is None else sum(
            report.failed(entry) for entry in told.entries[:self.installed + 1])
        self.tried, self.withdrawn = len(told.installs), len(told.withdrawals)
        later = [(entry, right) for entry, right in zip(live, expected)
                 if entry not in middle and self.installed is not None and int(entry['entry']) > self.installed]
        self.later = len(later)
        self.exits = sum(report.exited(entry) for entry, _ in later)
        self.right = sum(same(entry, right) for entry, right in later)
        self.changed = sum(not same(entry, right) for entry, right in zip(middle, expected[len(failing):]))
        self.good = len(middle)
        self.lost = sum(int(entry['turns']) for entry in live
                        if report.failed(entry) and self.installed is not None and int(entry['entry']) <= self.installed)
        self.turns = mean(entry for entry, _ in later if report.exited(entry))
        assert len(first) + len(middle) + len(second) == len(live)

    def cells(self):
        stopped = '; '.join(self.stops[:3]) + (f'; {len(self.stops) - 3} more' if len(self.stops) > 3 else '')
        if self.installed is None:
            return [stopped, 'none', '-', '-', f'{self.changed}', '-']
        return [stopped, f'{self.failures}', f'{self.tried}, {self.withdrawn}',
                f'{self.later}: {self.exits}, {self.right}', f'{self.changed}', f'{self.lost}, {self.turns or "-"}']


def same(entry, right):
    return (entry['end'], entry['output']) == (right['end'], right['output'])


def mean(entries):
    turns = [int(entry['turns']) for entry in entries]
    return round(sum(turns) / len(turns)) if turns else None


def wanted_of(name):
    """What the fixed program does with each input."""
    every = inputs(name, 'learn') + inputs(name, 'good') + inputs(name, 'failing')
    told = run(make_job.make(image_of(name, 'fixed'), [('live', every)], 1, CHECKS, BUDGET))
    return dict(zip(every, told.entries))


def results(names, levels, numbers):
    """The results by program, level and number of learn inputs: each level with few and many, and one level
    with all the numbers, where that is asked for."""
    keys = [(name, level, number) for name in names for level in levels for number in SETS.values()]
    keys += [(name, NUMBERS_LEVEL, number) for name in names for number in numbers]
    with ThreadPoolExecutor(os.cpu_count()) as pool:
        wanted = dict(zip(names, pool.map(wanted_of, names)))
        futures = {(name, level, number): pool.submit(
            Result, name, level, inputs(name, 'learn')[:number], wanted[name])
            for name, level, number in dict.fromkeys(keys)}
        return {key: future.result() for key, future in futures.items()}


def table(rows):
    return ''.join('| ' + ' | '.join(cells) + ' |\n' for cells in rows)


SUMS = ['jobs', 'stopped', 'a repair was installed', 'tried, withdrawn', 'later failing inputs: exit, right',
        'good inputs: changed']


def sums(some):
    """The cells of a row over several jobs."""
    return [f'{len(some)}', f'{sum(one.stopped for one in some)}',
            f'{sum(one.installed is not None for one in some)}',
            f'{sum(one.tried for one in some)}, {sum(one.withdrawn for one in some)}',
            f'{sum(one.later for one in some)}: {sum(one.exits for one in some)}, {sum(one.right for one in some)}',
            f'{sum(one.good for one in some)}: {sum(one.changed for one in some)}']


def with_head(head, rows):
    return table([head, ['---'] * len(head)] + rows)


def rows_of(found, names, levels, numbers):
    """The rows of the four tables: sums by level, by program and by number of learn inputs, and all jobs."""
    by_level = [[level, learn] + sums([found[name, level, number] for name in names])
                for learn, number in SETS.items() for level in levels]
    by_program = [[name, learn] + sums([found[name, level, number] for level in levels])
                  for name in names for learn, number in SETS.items()]
    by_number = [[f'{number}'] + sums([found[name, NUMBERS_LEVEL, number] for name in names]) for number in numbers]
    jobs = [[name, level, learn] + found[name, level, number].cells()
            for name in names for level in levels for learn, number in SETS.items()]
    return by_level, by_program, by_number, jobs


def without_lines(line):
    cells = line.split(' | ')
    return cells[:3] + cells[4:]


def check(rows):
    """Whether the page has the rows; without addr2line the column of source lines is not compared."""
    with open(PAGE, encoding='utf-8') as page:
        lines = page.read().splitlines()
    exact = report.shutil.which(report.ADDR2LINE)
    there = lines if exact else [without_lines(line) for line in lines]
    missing = [line for line in table(rows).splitlines() if (line if exact else without_lines(line)) not in there]
    for line in missing:
        print(f'not in docs/EVALUATION.md: {line}')
    print(f'{len(rows) - len(missing)} passed, {len(missing)} failed')
    return 1 if missing else 0


def main():
    parser = argparse.ArgumentParser(description=__doc__, formatter_class=argparse.RawDescriptionHelpFormatter)
    parser.add_argument('--write', action='store_true')
    parser.add_argument('--check', action='store_true')
    parser.add_argument('--jobs', action='store_true')
    parser.add_argument('--level', action='append', choices=LEVELS)
    parser.add_argument('names', nargs='*', metavar='NAME')
    given = parser.parse_args()
    names, levels = given.names or programs(), given.level or list(LEVELS)
    if given.jobs:
        for name in names:
            with open(os.path.join(HERE, name, 'job.json'), 'w', encoding='utf-8') as file:
                file.write(make_job.text_of(job_of(name, 'O1', inputs(name, 'learn'))))
        return
    numbers = () if given.check or given.level or given.names else NUMBERS
    by_level, by_program, by_number, jobs = rows_of(results(names, levels, numbers), names, levels, numbers)
    if given.check:
        sys.exit(check(jobs))
    text = (f'By level, over all programs:\n\n{with_head(["level", "learn"] + SUMS, by_level)}\n'
            f'By program, over all levels:\n\n{with_head(["program", "learn"] + SUMS, by_program)}\n')
    if numbers:
        text += (f'By number of learn inputs, over all programs at -{NUMBERS_LEVEL}:\n\n'
                 f'{with_head(["learn inputs"] + SUMS, by_number)}\n')
    text += f'Each job:\n\n{with_head(HEAD, jobs)}'
    if given.write:
        with open(PAGE, encoding='utf-8') as page:
            old = page.read()
        before, after = old[:old.index(BEGIN) + len(BEGIN)], old[old.index(END):]
        with open(PAGE, 'w', encoding='utf-8') as page:
            page.write(before + text + after)
    else:
        print(text, end='')


if __name__ == '__main__':
    main()
