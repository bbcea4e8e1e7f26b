"""The summary against counts of the report's own words: for the reports kept here, and for the reports that the built
program writes of the jobs under examples/faults (skipped where either is missing)."""
import collections
import glob
import os
import subprocess
import tempfile
import unittest

from common import CALLING, DATA, TOP, show, text_of
from showlib.facts import facts_of
from showlib.places import source_lines
from showlib.reading import read

PROGRAM = os.environ.get('CLEARVIEW') or os.path.join(TOP, 'crates', 'clearview', 'out', 'clearview')
FAULTS = os.path.join(TOP, 'examples', 'faults')
# some of the programs, so that the gate need not wait for all; CLEARVIEW_CORPUS=all takes them all
SOME = ('mixer', 'opcodes', 'parcels', 'sessions')
JOBS = [path for path in sorted(glob.glob(os.path.join(FAULTS, '*', 'job.json')))
        if os.environ.get('CLEARVIEW_CORPUS') == 'all' or os.path.basename(os.path.dirname(path)) in SOME]


def counted(text):
    """The counts of a report, from the words of its lines alone."""
    lines = [line.split(' ') for line in text.splitlines()]
    entries = [dict(zip(words[::2], words[1::2])) for words in lines if words[0] == 'entry']
    live = [entry for entry in entries if entry['mode'] == 'live']
    installs = [int(words[2]) for words in lines if words[0] == 'install']
    failed = [int(entry['entry']) for entry in live if entry['end'].startswith('failure')]
    states = collections.Counter(words[9].partition(':')[0] for words in lines if words[0] == 'case')
    return {
        'learn': ends([entry for entry in entries if entry['mode'] == 'learn']), 'live': ends(live),
        'before': sum(1 for number in failed if not installs or number <= installs[0]),
        'after': sum(1 for number in failed if installs and number > installs[0]),
        'installed': len(installs), 'withdrawn': sum(1 for words in lines if words[0] == 'withdraw'),
        'states': [states[state] for state in ('installed', 'checking', 'dropped')],
        'fired': ends([entry for entry in entries if entry['fired'] != '-']),
        'full': sum(1 for entry in entries if len(entry['output']) == 2 * 16384),
        'wins': sum(int(words[words.index('wins') + 1]) for words in lines if words[0] == 'repair'),
    }


def ends(entries):
    """How many exited, failed and used up their budget."""
    found = collections.Counter(entry['end'].partition(':')[0] for entry in entries)
    return [found['exit'], found['failure'], found['budget']]


def told(text):
    """The same counts as the summary has them."""
    report = read(text)
    facts = facts_of(report)
    wins = sum(1 for case in facts.cases for entries in case.fired.values() for number in entries
               if report.entries[number].end.sort == 'exit')
    return {
        'learn': list(facts.learn), 'live': list(facts.live), 'before': len(facts.failures_before),
        'after': len(facts.failures_after), 'installed': facts.installed, 'withdrawn': facts.withdrawn,
        'states': [facts.states[state] for state in ('installed', 'checking', 'dropped')],
        'fired': list(facts.fired_ends), 'full': len(facts.output_full), 'wins': wins,
    }


class Corpus(unittest.TestCase):
    def test_kept_reports(self):
        for path in [CALLING, *sorted(glob.glob(os.path.join(DATA, '*.txt')))]:
            text = text_of(path)
            self.assertEqual(told(text), counted(text), path)

    @unittest.skipUnless(os.path.exists(PROGRAM) and JOBS, 'no built program, or no examples/faults')
    def test_faults(self):
        for path in JOBS:
            done = subprocess.run([PROGRAM, 'run', path], cwd=TOP, capture_output=True, text=True, timeout=120,
                                  check=True)
            self.assertEqual(told(done.stdout), counted(done.stdout), path)

    @unittest.skipUnless(os.path.exists(PROGRAM) and os.path.exists(os.path.join(FAULTS, 'shapes')),
                         'no built program, or no examples/faults')
    def test_source_lines(self):
        # a null pointer is called, where all good inputs call one of three functions
        job, elf = 'examples/faults/shapes/job.json', 'examples/faults/shapes/O1.elf'
        if not source_lines(os.path.join(TOP, elf), range(0x10094, 0x10194, 4)):
            self.skipTest('no addr2line that knows RISC-V')
        done = subprocess.run([PROGRAM, 'run', job], cwd=TOP, capture_output=True, timeout=120, check=True)
        with tempfile.NamedTemporaryFile(suffix='.txt') as file:
            file.write(done.stdout)
            file.flush()
            shown = show(file.name, '--job', job, '--elf', elf, '--program', PROGRAM, cwd=TOP)
        words = ' '.join(shown.stdout.split())
        self.assertRegex(words, r'Before the call at shapes\.c:\d+, a5 \(x15\) was always one of these three '
                                r'addresses: rectangle, square or triangle; in every checked failure it was not')
        self.assertRegex(words, r'shapes\.c:\d+ in main .* called from start\.[cS]:\d+ in _start')
        self.assertRegex(words, r'plain illegal transfer at shapes\.c:\d+; patched exit 0')


if __name__ == '__main__':
    unittest.main()
