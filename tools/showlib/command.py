"""The command: reads its words, then the report, the job and the ELF file, and tells or writes the page."""
import argparse
import os
import sys

from .beside import compare, unlike_learned
from .facts import facts_of
from .images import Image, NotImage
from .jobs import JobFile, WrongJob
from .page import page
from .places import Places, addresses_of, source_lines
from .reading import NotReport, read
from .text import tell

TOP = os.path.dirname(os.path.dirname(os.path.dirname(os.path.abspath(__file__))))
PROGRAM = os.path.join(TOP, 'crates', 'clearview', 'out', 'clearview')


class Refused(Exception):
    """What the command cannot go on with, as its line on standard error."""


def words_of(words):
    parser = argparse.ArgumentParser(
        prog='show', description='Tells a report of `clearview run` so that people can read it.')
    parser.add_argument('report', metavar='REPORT', help='the report')
    parser.add_argument('--job', metavar='JOB', help='its job: shows inputs, and runs each run in which a repair '
                                                     'fired once more without patches')
    parser.add_argument('--elf', metavar='FILE', help='the program as an ELF file that was not stripped: shows '
                                                      'functions and source lines')
    parser.add_argument('--html', metavar='OUT', help='writes a page in place of the text')
    parser.add_argument('--program', metavar='FILE', default=PROGRAM, help='the built clearview, for the plain runs')
    return parser.parse_args(words)


def note(text):
    """A line on standard error that stops nothing."""
    print(f'show: note: {text}', file=sys.stderr)


def read_report(path):
    """The report in the file, or Refused with the place where it is none."""
    with open(path, 'rb') as file:
        data = file.read()
    try:
        return read(data.decode('ascii'))
    except UnicodeDecodeError as error:
        line = data.count(b'\n', 0, error.start) + 1
        raise Refused(f'{path}: no report: line {line}: a byte that is no ASCII character') from error
    except NotReport as error:
        raise Refused(f'{path}: no report: {error}') from error


def read_elf(path):
    """The ELF file's words and names, or Refused."""
    with open(path, 'rb') as file:
        data = file.read()
    try:
        image = Image(data)
    except NotImage as error:
        raise Refused(f'{path}: {error}') from error
    if not image.is_elf:
        raise Refused(f'{path}: it is no ELF file')
    return image


def read_image(job):
    """The job's image as words, or None where it cannot be read as one."""
    try:
        return Image(job.image)
    except NotImage:
        return None


def places_of(report, job, options):
    """How addresses are called: by the job's image and the ELF file, as far as they are given."""
    elf = read_elf(options.elf) if options.elf else None
    image = read_image(job) if job else None
    if elf and image and elf.code and image.code and elf.code != image.code:
        note("the code of the ELF file is not that of the job's image: names and lines may be wrong")
    if elf and not elf.functions:
        note('the ELF file names no function: it was stripped')
    lines = source_lines(options.elf, addresses_of(report)) if elf else {}
    return Places(image, elf, lines)


def beside_of(report, facts, job, program):
    """The plain runs beside the repaired ones; None, with a note, where the program is not built."""
    if not os.path.exists(program):
        note(f'no plain runs: {program} is not there; ./clearview builds it, --program names another')
        return None
    return compare(report, facts, job, os.path.abspath(program))


def show(options):
    """Does what the options say."""
    report = read_report(options.report)
    facts = facts_of(report)
    job = None
    if options.job:
        job = JobFile(options.job)
        job.agree(report, options.job)
    places = places_of(report, job, options)
    beside = beside_of(report, facts, job, options.program) if job and facts.fired else None
    unlike = unlike_learned(report, facts)
    name = os.path.basename(options.report)
    if not options.html:
        sys.stdout.write(tell(name, report, facts, places, beside, unlike))
        return
    with open(options.html, 'w', encoding='utf-8') as file:
        file.write(page(name, report, facts, places, job, beside, unlike))


def main():
    """Runs the command; the status is 0, 2 for words that are none, 3 for what is refused, 6 where a file fails."""
    try:
        show(words_of(sys.argv[1:]))
        return 0
    except (Refused, WrongJob) as error:
        print(f'show: {error}', file=sys.stderr)
        return 3
    except BrokenPipeError:
        sys.stderr.close()
        return 6
    except OSError as error:
        print(f'show: {error.filename or "a file"}: {error.strerror}', file=sys.stderr)
        return 6
