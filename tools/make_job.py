#!/usr/bin/env python3
"""Makes a job of input files, and says in plain words why a job would be refused. It runs nothing.

    tools/make_job.py program.elf --learn good/* --live crash/* -o job.json
    tools/make_job.py --explain job.json

Each FILE is one input, as it stands; a folder stands for all its files, by name. `--learn` and `--live`
make one round each, in the order in which they stand, as does `--round MODE FILE...`; they may be given
several times. IMAGE goes into the job as it is written: it is the name that `clearview` will open, from
the folder where it runs. Without `-o` the job is written to the output.

The rules are those of docs/FORMATS.md, "Job". The status is 0 where the job would be accepted, 3 where it
would be refused, 2 for wrong words. Notes do not change the status."""
import argparse
import json
import os
import sys

WORKERS, CHECKS, BUDGET = (1, 16), (2, 8), (1, 10_000_000)
ROUNDS, RUNS, INPUT, NAME, JOB = 64, 1024, 65_536, 4096, 16_777_216
MODES = ('learn', 'live')


class Round(argparse.Action):
    """`--learn`, `--live` and `--round` add to one list, so that their order is kept."""

    def __call__(self, parser, namespace, values, option=None):
        mode, files = (option[2:], values) if option[2:] in MODES else (values[0], values[1:])
        if mode not in MODES or not files:
            parser.error(f'{option}: a mode, learn or live, and at least one file')
        namespace.rounds.append((mode, files))


def files_of(names):
    """The files that the names stand for: a folder for the files in it, by name."""
    for name in names:
        if os.path.isdir(name):
            yield from (os.path.join(name, inner) for inner in sorted(os.listdir(name)) if inner[0] != '.')
        else:
            yield name


def inputs_of(names, digits):
    """For each file its name and its input as hexadecimal digits."""
    for name in files_of(names):
        with open(name, 'rb') as file:
            content = file.read()
        yield name, ''.join(content.decode('latin-1').split()) if digits else content.hex()


def make(image, rounds, workers=1, checks=2, budget=1_000_000):
    """A job of rounds, each a mode and a list of inputs in hexadecimal digits."""
    return {'image': image, 'workers': workers, 'checks': checks, 'budget': budget,
            'rounds': [{'mode': mode, 'inputs': inputs} for mode, inputs in rounds]}


def text_of(job):
    return json.dumps(job, indent=1) + '\n'


def whole(value):
    return isinstance(value, int) and not isinstance(value, bool)


def faults_of_input(where, value):
    if not isinstance(value, str):
        return [f'{where} is no string']
    wrong = [c for c in value if c not in '0123456789abcdefABCDEF']
    if wrong:
        return [f'{where} has {wrong[0]!r}, which is no hexadecimal digit']
    if len(value) % 2:
        return [f'{where} has an odd number of digits, {len(value)}: a byte is two digits']
    if len(value) > 2 * INPUT:
        return [f'{where} is too long: {len(value) // 2} bytes, and {INPUT} are the most']
    return []


def faults_of_round(number, given, names):
    where = f'round {number}'
    if not isinstance(given, dict):
        return [f'{where} is no object']
    found = []
    if given.get('mode') not in MODES:
        found.append(f'{where} has no mode `learn` or `live`')
    inputs = given.get('inputs')
    if not isinstance(inputs, list) or not inputs:
        return found + [f'{where} has no list of inputs with at least one in it']
    for place, value in enumerate(inputs):
        name = names.get((number, place))
        found += faults_of_input(f'{where}, input {place}' + (f' ({name})' if name else ''), value)
    return found


def faults(job, names=None):
    """Why the job would be refused, in plain words; nothing where it would be accepted. `names` has the
    files' names by the numbers of round and input, which are counted from 0."""
    if not isinstance(job, dict):
        return ['the job is no JSON object']
    found = []
    image = job.get('image')
    if not isinstance(image, str) or not 1 <= len(image.encode()) <= NAME:
        found.append(f'`image` is no string of 1 to {NAME} bytes')
    for field, (least, most) in (('workers', WORKERS), ('checks', CHECKS), ('budget', BUDGET)):
        if not whole(job.get(field)) or not least <= job[field] <= most:
            found.append(f'`{field}` is no whole number from {least} to {most}: {job.get(field, "it is missing")}')
    rounds = job.get('rounds')
    if not isinstance(rounds, list) or not 1 <= len(rounds) <= ROUNDS:
        return found + [f'`rounds` is no list of 1 to {ROUNDS} rounds']
    for number, given in enumerate(rounds):
        found += faults_of_round(number, given, names or {})
    if not found:
        runs = sum(len(given['inputs']) for given in rounds)
        if runs > RUNS:
            found.append(f'there are {runs} inputs in all rounds together, and {RUNS} are the most')
    return found


def is_source(name):
    """Whether the file begins as a text does: a program has bytes that are none, its ECALL for one."""
    try:
        with open(name, 'rb') as file:
            content = file.read(4096)
    except OSError:
        return False
    return bool(content) and all(byte in b'\t\n\r' or 32 <= byte < 127 for byte in content)


def notes(job):
    """What is allowed, and will disappoint (docs/EVALUATION.md, "What to expect")."""
    learn = {value for given in job['rounds'] if given['mode'] == 'learn' for value in given['inputs']}
    live = sum(len(given['inputs']) for given in job['rounds'] if given['mode'] == 'live')
    if not learn:
        yield 'nothing is learned: without a learn round no case gets candidates'
    elif len(learn) < 8:
        yield f'{len(learn)} different learn inputs are few: repairs may change good runs'
    if 0 < live < job['checks'] + 2:
        yield (f'{live} live inputs are few: with {job["checks"]} checks a repair is installed at the failure '
               f'number {job["checks"] + 1} at the earliest, and is tried in the runs behind it')
    if not os.path.exists(job['image']):
        yield f'there is no file {job["image"]} here: the job names it as the folder sees it where clearview runs'
    elif is_source(job['image']):
        yield f'{job["image"]} is a text and no program: clearview would take its letters for instructions'


def words():
    parser = argparse.ArgumentParser(description=__doc__, formatter_class=argparse.RawDescriptionHelpFormatter)
    parser.add_argument('image', nargs='?', metavar='IMAGE')
    parser.add_argument('--learn', nargs='+', action=Round, metavar='FILE')
    parser.add_argument('--live', nargs='+', action=Round, metavar='FILE')
    parser.add_argument('--round', nargs='+', action=Round, metavar=('MODE', 'FILE'))
    parser.add_argument('--digits', action='store_true', help='the files hold hexadecimal digits')
    parser.add_argument('--workers', type=int, default=1)
    parser.add_argument('--checks', type=int, default=2)
    parser.add_argument('--budget', type=int, default=1_000_000, help='turns that one run may take')
    parser.add_argument('-o', metavar='JOB', help='the file to write')
    parser.add_argument('--explain', metavar='JOB', help='say why this job would be refused')
    parser.set_defaults(rounds=[])
    given = parser.parse_args()
    if (given.image is None) == (given.explain is None) or (given.image and not given.rounds):
        parser.error('an image and at least one round, or --explain and a job')
    return given


def explained(name):
    """The job of a file, or why it is none."""
    if os.path.getsize(name) > JOB:
        return None, [f'the file has {os.path.getsize(name)} bytes, and {JOB} are the most']
    with open(name, 'rb') as file:
        try:
            job = json.loads(file.read().decode('utf-8'), parse_constant=no_json, parse_float=finite)
            json.dumps(job, ensure_ascii=False).encode('utf-8')
            return job, []
        except (ValueError, RecursionError) as error:
            return None, [f'the file is no JSON: {error}']


def no_json(word):
    raise ValueError(f'{word} is no JSON number')


def finite(digits):
    number = float(digits)
    return number if abs(number) != float('inf') else no_json(digits)


def main():
    given = words()
    names, found = {}, []
    try:
        if given.explain:
            job, found = explained(given.explain)
        else:
            rounds = []
            for number, (mode, files) in enumerate(given.rounds):
                pairs = list(inputs_of(files, given.digits))
                names.update({(number, place): name for place, (name, _) in enumerate(pairs)})
                rounds.append((mode, [value for _, value in pairs]))
            job = make(given.image, rounds, given.workers, given.checks, given.budget)
    except OSError as error:
        sys.exit(f'make_job: {error.filename}: {error.strerror}')
    found = found or faults(job, names)
    text = '' if found else text_of(job)
    if len(text) > JOB:
        found = [f'the job has {len(text)} bytes, and {JOB} are the most']
    for line in found:
        print(f'refused: {line}', file=sys.stderr)
    if found:
        sys.exit(3)
    for line in notes(job):
        print(f'note: {line}', file=sys.stderr)
    if given.explain:
        print(f'accepted: {len(job["rounds"])} rounds, {sum(len(r["inputs"]) for r in job["rounds"])} runs')
    elif given.o:
        try:
            with open(given.o, 'w', encoding='utf-8') as file:
                file.write(text)
        except OSError as error:
            sys.exit(f'make_job: {given.o}: {error.strerror}')
    else:
        sys.stdout.write(text)


if __name__ == '__main__':
    main()
