#!/usr/bin/env python3
"""replays.py PROGRAM [--turns N] [--edits N] [--seed S]: `replay` (docs/REPAIR.md, "Replay"). A turn of the worked
example is written out. Of the runs of stored reports, which come from outside, of one by three workers and of a
program in C, at most N turns each, many of them one behind the other: `since` is worked out again from the values
before and after a turn; the first turn is the start; a run that failed ends at its end's pc, under as many frames as
its sites say; where no repair fired, one instruction writes no more than its register, a turn without a jump goes to
the next word, a call links, and runs of one input stand alike before each turn. A report that is not sound, or is
refused, and files that are missing give what `audit` gives, N reports with one place changed as well. Words that are
no command are refused. The last line is `N passed, M failed`; the status is 1 where a case failed."""
import argparse
import json
import os
import random
import re
import struct
import sys
from concurrent.futures import ThreadPoolExecutor
from functools import partial
from typing import NamedTuple, Optional, Tuple

from audits import CHANGED, UNREAD, audit, content, edited, files_of
from program import built, ends, run
from legal import faults_of  # which finds the reader of tools/show
from showlib.images import FLAT_BASE, Image
from showlib.reading import read

HERE = os.path.dirname(os.path.abspath(__file__))
TOP, SHOWN = os.path.join(HERE, '..'), os.path.join(HERE, 'show', 'data')
STORED = ('bad-call', 'copied-register', 'first-repair-fails', 'good-runs-learned', 'once-and-twice', 'return-out-of-a-frame',
          'sp-out-of-place', 'straight-run', 'too-many-frames')
IN_C, SOME = 'parcels', (0, 12, 13, 14, 15, 35)  # of examples/faults, and some of its runs
STACK, NUMBERS, LINKS = 0x800000, range(1, 32), 4  # sites are the pc and as many frames less one
VALUES, SINCE = r'[0-9A-F]{8}(?:,[0-9A-F]{8}){30}', r'(?:-|\d+)(?:,(?:-|\d+)){30}'
TOLD = re.compile(rf'run (\d+) turn (\d+) pc ([0-9A-F]{{8}}) frames (\d+) frame-sp ([0-9A-F]{{8}})\nregs ({VALUES})\nsince ({SINCE})\n')
NO_TURN, NO_RUN = 'no such turn\n', 'no such run\n'
# the worked example: run 2 before its call
VALUE = {2: '00800000', 10: '00000004', 11: '007FFFF0', 12: '00000004', 17: '0000003F'}
TURN = {10: '4', 11: '1', 12: '2', 17: '3'}
WORKED = ('run 2 turn 6 pc 00010018 frames 0 frame-sp 00800000\n'
          f'regs {",".join(VALUE.get(number, "00000000") for number in NUMBERS)}\n'
          f'since {",".join(TURN.get(number, "-") for number in NUMBERS)}\n')
# run and turn, and what is written
ASKED = [('2', '6', WORKED), ('0002', '00000006', WORKED), ('2', '7', NO_TURN), ('2', '00000007', NO_TURN),
         ('2', '99999999', NO_TURN), ('0', '11', NO_TURN), ('6', '0', NO_RUN), ('6', '99999999', NO_RUN), ('9999', '6', NO_RUN)]
# what stands behind `replay`, where that is no command
FILES, TURNED = ['job.json', 'report.txt'], ['2', '6']
NO_NUMBERS = ['', '-', '-1', '+1', ' 1', '1 ', '1.0', '1e1', '0x1', '1_0', 'x', '\u0661', '1\n']
NO_COMMAND = [[], FILES, [*FILES, '2'], [*FILES, '2', '6', '6'], ['', 'report.txt', '2', '6'], ['job.json', '', '2', '6'],
              ['-job.json', 'report.txt', '2', '6'], ['job.json', '-report.txt', '2', '6'], ['-', 'report.txt', '2', '6'],
              [*FILES, '12345', '6'], [*FILES, '00002', '6'], [*FILES, '2', '123456789'], [*FILES, '2', '000000006'],
              [*FILES, b'2\xff', '6'], *([*FILES, word, '6'] for word in NO_NUMBERS), *([*FILES, '2', word] for word in NO_NUMBERS)]
# what stands in place of files of the worked example (ABSENT: nothing, None: a folder), status and line
ABSENT = ''
UNREADABLE = [
    ({'job.json': ABSENT}, 12, 'no such file'), ({'image.bin': ABSENT}, 12, 'no such file'), ({'report.txt': ABSENT}, 12, 'no such file'),
    ({'job.json': None}, 6, 'cannot read'), ({'image.bin': None}, 6, 'cannot read'), ({'report.txt': None}, 6, 'cannot read'),
    ({'job.json': b'{'}, 3, 'job refused: not-json'), ({'job.json': b'{}'}, 3, 'job refused: field image'),
    ({'image.bin': b'123'}, 4, 'image refused: not-words'), ({'report.txt': b'\n'}, 9, 'report refused: not-report'),
    ({'job.json': bytes(16_777_217)}, 3, 'job too long'), ({'image.bin': bytes(4_194_305)}, 4, 'image too long'),
    # the cause of the earlier file
    ({'job.json': b'{', 'image.bin': ABSENT, 'report.txt': ABSENT}, 3, 'job refused: not-json'),
    ({'image.bin': b'123', 'report.txt': None}, 4, 'image refused: not-words'),
    ({'image.bin': ABSENT, 'report.txt': b'x'}, 12, 'no such file'),
]


class Turn(NamedTuple):
    """A state before a turn, and since when each of x1 to x31 has its value: None where it had it at the start."""
    pc: int
    frames: int
    frame_sp: int
    regs: Tuple[int, ...]
    since: Tuple[Optional[int], ...]


def answer(words, files):
    """Status, output and error lines."""
    done = run(words, files)
    return done.returncode, done.stdout, done.stderr


def replay(files, report, number, turn):
    return answer(['replay', *FILES, number, turn], {**files, 'report.txt': report.encode('latin-1')})


def turn_of(files, report, number, turn):
    """The state before a turn of a run, or the answer where that tells none."""
    status, text, error = replay(files, report, str(number), str(turn))
    told = TOLD.fullmatch(text)
    if (status, error) != (0, '') or not told or (int(told[1]), int(told[2])) != (number, turn):
        return status, text, error
    return Turn(int(told[3], 16), int(told[4]), int(told[5], 16), tuple(int(value, 16) for value in told[6].split(',')),
                tuple(None if word == '-' else int(word) for word in told[7].split(',')))


# ---- what the states of a run have to be

class Program:
    """What a job says of its runs: the entry of its image and its words, and the inputs."""

    def __init__(self, files):
        data = files['image.bin']
        self.image = Image(data)
        self.entry = struct.unpack_from('<I', data, 24)[0] if self.image.is_elf else FLAT_BASE
        self.inputs = [each.lower() for each_round in json.loads(files['job.json'])['rounds'] for each in each_round['inputs']]

    def start(self):
        """The state before turn 0."""
        return Turn(self.entry, 0, STACK, tuple(STACK if number == 2 else 0 for number in NUMBERS), (None,) * len(NUMBERS))

    def effect(self, pc):
        """The register that the instruction there may write, 0 where it writes none; whether it may jump; whether it
        links, so that it may push or pop a frame."""
        word = self.image.word(pc)
        low, rd = word & 0x7f, word >> 7 & 31
        if low in (0x63, 0x23, 0x0f):
            return 0, low == 0x63, False
        return (10, False, False) if low == 0x73 else (rd, low in (0x6f, 0x67), low in (0x6f, 0x67))


def since_faults(turn, before, after):
    """`since` of two turns that follow one another: the first of them where a value changed, else as it was."""
    wanted = tuple(turn - 1 if old != new else since for old, new, since in zip(before.regs, after.regs, before.since))
    return [] if after.since == wanted else [f'turn {turn}: since {after.since}, expected {wanted}']


def step_faults(turn, before, after, program):
    """What one instruction does not do, where no repair fired."""
    register, jumps, links = program.effect(before.pc)
    others = any(old != new and number != register for number, old, new in zip(NUMBERS, before.regs, after.regs))
    frame = after.frames - before.frames, after.frame_sp
    if links:
        wrong = frame[0] not in (-1, 0, 1) or frame[0] == 1 and frame[1] != before.regs[1] \
            or register and after.regs[register - 1] != before.pc + 4
    else:
        wrong = frame != (0, before.frame_sp) or not jumps and after.pc != before.pc + 4
    if others or wrong:
        yield f'turn {turn}: {before} goes to {after}'


def end_faults(entry, last):
    """Where a run stands before its last turn, from what its entry says of the end."""
    if entry.end.sort == 'failure' and (last.pc, min(last.frames + 1, LINKS)) != (entry.end.pc, len(entry.sites)):
        yield f'the run ends at {last.pc:08X} with {last.frames} frames'
    if entry.end.sort == 'exit' and not entry.fired and (last.regs[16], last.regs[9]) != (93, entry.end.code):
        yield f'the run exits with x17 {last.regs[16]} and x10 {last.regs[9]}'


def run_faults(entry, states, program):
    """What is wrong with the states of a run, by turn."""
    wrong = [f'turn {turn}: {told}' for turn, told in states.items() if not isinstance(told, Turn)]
    if wrong:
        yield from wrong
        return
    if states[0] != program.start():
        yield f'turn 0: {states[0]}'
    for turn, state in states.items():
        if any(since is not None and since >= turn for since in state.since) or state.frames == 0 and state.frame_sp != STACK:
            yield f'turn {turn}: {state}'
        if turn - 1 in states:
            yield from since_faults(turn, states[turn - 1], state)
            yield from [] if entry.fired else step_faults(turn, states[turn - 1], state, program)
    yield from end_faults(entry, states[entry.turns - 1])


def window(turns, most, rng):
    """The turns of a run that are looked at: all, or some at its beginning, in its midst and at its end."""
    if turns <= most:
        return range(turns)
    part = max(most // 3, 2)
    middle = rng.randrange(turns - part)
    return sorted({*range(part), *range(middle, middle + part), *range(turns - part, turns)})


def runs(name, files, report, most, rng, pool, some=None):
    """The cases of a report: its runs, or some of them, each by itself and beside those of its input; no turn stands
    behind the last one."""
    program, plain = Program(files), {}
    entries = [entry for entry in read(report).entries if some is None or entry.run in some]
    asked = [(entry.run, turn) for entry in entries for turn in [*window(entry.turns, most, rng), entry.turns]]
    rng.shuffle(asked)
    told = dict(zip(asked, pool.map(lambda pair: turn_of(files, report, *pair), asked)))
    for entry in entries:
        states = {turn: told[entry.run, turn] for number, turn in sorted(told) if number == entry.run}
        behind = states.pop(entry.turns)
        faults = list(run_faults(entry, states, program))
        if behind != (0, NO_TURN, ''):
            faults.append(f'turn {entry.turns}: {behind}')
        if not entry.fired:
            known = plain.setdefault(program.inputs[entry.run], {})
            faults += [f'turn {turn}: another run of this input stood otherwise'
                       for turn, state in states.items() if known.setdefault(turn, state) != state]
        yield f'{name}, run {entry.run}', faults


def reports():
    """Jobs with a report each, and the runs that are looked at: stored ones, one by three workers, and one of a
    program in C, which `run` writes here."""
    for name in STORED:
        yield name, files_of(name), content(name, 'report.txt').decode(), None
    job, image, report = (bytes_of(SHOWN, f'three-workers.{end}') for end in ('json', 'bin', 'txt'))
    yield 'three workers', with_image(job, image), report.decode(), None
    job = bytes_of(TOP, 'examples', 'faults', IN_C, 'job.json')
    files = with_image(job, bytes_of(TOP, json.loads(job)['image']))
    status, report, error = answer(['run', 'job.json'], files)
    assert (status, error) == (0, '') and not faults_of(report, json.loads(files['job.json'])), error
    yield IN_C, files, report, SOME


def bytes_of(*parts):
    with open(os.path.join(*parts), 'rb') as file:
        return file.read()


def with_image(job, image):
    """The files of a job whose image has another name."""
    return {'job.json': json.dumps({**json.loads(job), 'image': 'image.bin'}).encode(), 'image.bin': image}


# ---- other answers

def differs(told, wanted):
    return [] if told == wanted else [f'{told}, expected {wanted}']


def as_told(words, files, wanted):
    return differs(answer(words, files), wanted)


def as_audited(files, report, number, turn):
    """A report that is not sound, or refused, gives what an audit gives; of a sound one a turn is shown."""
    told, audited = replay(files, report, number, turn), audit(files, report)
    if not audited[1].startswith('sound\n'):
        return differs(told, audited)
    shown = TOLD.fullmatch(told[1]) or told[1] in (NO_TURN, NO_RUN)
    return [] if shown and (told[0], told[2]) == (0, '') else [f'{told}, of a sound report']


def worked():
    """The worked example: turns that are there and that are not, in its report as it stands and changed."""
    files, report = files_of('bad-call'), content('bad-call', 'report.txt').decode()
    for old, new, found in [('', '', 'sound\n'), *CHANGED]:
        changed = {**files, 'report.txt': report.replace(old, new, 1).encode()}
        for number, turn, text in ASKED:
            wanted = 0, text if found.startswith('sound\n') else found, ''
            yield f'{old} now {new}, {number} {turn}', partial(as_told, ['replay', *FILES, number, turn], changed, wanted)
    for old, new, fault in UNREAD:
        changed, line = {**files, 'report.txt': report.replace(old, new, 1).encode()}, f'clearview: report refused: {fault}\n'
        yield new, partial(as_told, ['replay', *FILES, *TURNED], changed, (9, '', line))
    other = {**files_of('first-repair-fails'), 'report.txt': report.encode()}
    yield 'a report of another job', partial(as_told, ['replay', *FILES, *TURNED], other, (0, 'wrong entry 0 clause 4\n', ''))


def changed_reports(edits, rng):
    """Reports with one place changed."""
    for name in ('bad-call', 'first-repair-fails'):
        files, report = files_of(name), content(name, 'report.txt').decode()
        for count in range(edits):
            number, turn = str(rng.randrange(8)), str(rng.randrange(13))
            yield f'{name}, edit {count}, {number} {turn}', partial(as_audited, files, edited(report, rng), number, turn)


def files_and_words():
    """Files that are missing, refused, or cannot be read, as for `audit`; and words that are no command, though files
    of these names are there."""
    whole = {**files_of('bad-call'), 'report.txt': content('bad-call', 'report.txt')}
    for other, status, line in UNREADABLE:
        files = {name: data for name, data in {**whole, **other}.items() if data != ABSENT}
        for words in (['replay', *FILES, *TURNED], ['audit', *FILES]):
            yield f'{words[0]}, {line}', partial(as_told, words, files, (status, '', f'clearview: {line}\n'))
    named = {**whole, **{'-' + name: data for name, data in whole.items()}}
    for words in NO_COMMAND:
        yield f'words {words}', partial(as_told, ['replay', *words], named, (2, '', 'clearview: usage\n'))
    yield 'names in a folder', partial(as_told, ['replay', './-job.json', './-report.txt', *TURNED], named, (0, WORKED, ''))


def main():
    parser = argparse.ArgumentParser(description=__doc__.split('\n', 1)[0])
    parser.add_argument('program')
    parser.add_argument('--turns', type=int, default=12)
    parser.add_argument('--edits', type=int, default=40)
    parser.add_argument('--seed', type=int, default=1)
    asked = parser.parse_args()
    sys.argv[1] = built(asked.program)
    rng = random.Random(asked.seed)
    cases = [*worked(), *changed_reports(asked.edits, rng), *files_and_words()]
    with ThreadPoolExecutor(os.cpu_count()) as pool:
        results = [(name, faults) for (name, _), faults in zip(cases, pool.map(lambda case: case[1](), cases))]
        for report in reports():
            name, files, text, some = report
            results += runs(name, files, text, asked.turns, rng, pool, some)
    failed = [(name, faults) for name, faults in results if faults]
    for name, faults in failed:
        print(f'{name}: {str("; ".join(faults[:3]))[:1000]}')
    ends(len(results), len(failed))


if __name__ == '__main__':
    main()
