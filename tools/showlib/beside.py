"""Plain beside patched: each run in which a repair fired, run once more without patches, and how the two differ.

The plain run is the program's own `plain IMAGE BUDGET INPUT`. Equal inputs are run once."""
import re
import subprocess
from concurrent.futures import ThreadPoolExecutor
from dataclasses import dataclass
from typing import List, Optional

from .model import End
from .reading import BYTES, Fields, NotReport, end_of

# seconds that one plain run may take, and bytes of one word of a command line
PATIENCE = 120
WORD_LIMIT = 131071


@dataclass
class Beside:
    """A run with a repair: its plain end, turns and output, or why there is none; and what to look at.

    `warning` is set where the plain run exits: the repair changed a run that was good.
    `parted` is the place of the first byte where the outputs differ, None where they are equal."""
    entry: int
    trouble: Optional[str] = None
    end: Optional[End] = None
    turns: int = 0
    output: bytes = b''
    warning: bool = False
    parted: Optional[int] = None


class NoPlain(Exception):
    """The plain run gave no answer."""


def read_plain(text):
    """End, turns and output of the text of `plain`."""
    lines = text.split('\n')
    try:
        end = Fields(1, lines[0])
        end.key('end')
        turns = Fields(2, lines[1])
        turns.key('turns')
        output = Fields(3, lines[2])
        output.key('output')
        word = output.matches('output', BYTES, 'bytes')
        return end_of(end), turns.number('turns'), b'' if word == '-' else bytes.fromhex(word)
    except (NotReport, IndexError) as error:
        raise NoPlain('the program did not answer as `plain` does') from error


def run_plain(program, image, budget, digits):
    """End, turns and output of the plain run of an input."""
    if len(digits) > WORD_LIMIT:
        raise NoPlain('the input is too long for a command line')
    try:
        done = subprocess.run([program, 'plain', image, str(budget), digits or 'none'], capture_output=True,
                              text=True, timeout=PATIENCE, stdin=subprocess.DEVNULL)
    except (OSError, UnicodeDecodeError) as error:
        raise NoPlain(f'{program} cannot be run: {error}') from error
    except subprocess.TimeoutExpired as error:
        raise NoPlain(f'no answer within {PATIENCE} seconds') from error
    if done.returncode:
        said = done.stderr.strip().splitlines()
        raise NoPlain(f'the program ended with status {done.returncode}' + (f': {said[-1]}' if said else ''))
    return read_plain(done.stdout)


def first_difference(left, right):
    """The place of the first byte where the two differ, the shorter one's length where it is a beginning;
    None where they are equal."""
    if left == right:
        return None
    for place, (one, other) in enumerate(zip(left, right)):
        if one != other:
            return place
    return min(len(left), len(right))


def outputs_words(each, patched):
    """How the outputs of the plain and the patched run compare, in a few words."""
    if each.parted is None:
        return 'outputs are equal' if patched else 'no output from either'
    if not each.output or not patched:
        return 'only the patched run wrote' if patched else 'only the plain run wrote'
    if each.parted in (len(each.output), len(patched)):
        return f'the {"patched" if len(patched) > each.parted else "plain"} run wrote on from byte {each.parted:,}'
    return f'outputs part at byte {each.parted:,}'


def compare(report, facts, job, program, workers=4) -> List[Beside]:
    """A Beside for each run in which a repair fired, in order."""
    inputs = {job.runs[report.entries[number].run][2].lower() for number in facts.fired}

    def answer(digits):
        try:
            return run_plain(program, job.image_path, report.job.budget, digits)
        except NoPlain as error:
            return str(error)

    with ThreadPoolExecutor(workers) as pool:
        plain = dict(zip(inputs, pool.map(answer, inputs)))
    found = []
    for number in facts.fired:
        entry = report.entries[number]
        told = plain[job.runs[entry.run][2].lower()]
        if isinstance(told, str):
            found.append(Beside(number, trouble=told))
            continue
        end, turns, output = told
        found.append(Beside(number, end=end, turns=turns, output=output, warning=end.sort == 'exit',
                            parted=first_difference(output, entry.output)))
    return found


# letters, digits, and bytes that are no text, each run of them as one
SHAPES = ((re.compile(rb'[A-Za-z]+'), b'a'), (re.compile(rb'[0-9]+'), b'0'),
          (re.compile(rb'[^\t -~]+'), b'?'))


def shape(line):
    """The form of a line of output: words, numbers and other bytes are each one letter, the rest stays."""
    for pattern, letter in SHAPES:
        line = pattern.sub(letter, line)
    return line


@dataclass
class Unlike:
    """What the output and end of a repaired run have that no learn run that exited had."""
    entry: int
    lines: List[bytes]
    new_code: bool

    @property
    def any(self):
        return bool(self.lines) or self.new_code


def unlike_learned(report, facts) -> List[Unlike]:
    """For each run in which a repair fired and that exited: its lines of a form that no good learn run wrote, and
    whether its exit code was none of theirs. Shown, not judged."""
    good = [entry for entry in report.entries if entry.mode == 'learn' and entry.end.sort == 'exit']
    shapes = {shape(line) for entry in good for line in entry.output.split(b'\n')}
    codes = {entry.end.code for entry in good}
    found = []
    for number in facts.fired:
        entry = report.entries[number]
        if entry.end.sort != 'exit':
            continue
        lines = [line for line in entry.output.split(b'\n') if shape(line) not in shapes]
        found.append(Unlike(number, lines, entry.end.code not in codes))
    return found
