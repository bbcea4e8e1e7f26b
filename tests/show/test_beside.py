"""Plain beside patched, with a program that answers as `plain` does from a table."""
import json
import os
import stat
import tempfile
import unittest

from common import DATA, show

# answers by input, worked out by hand: without patches the call of address 0 fails as the live runs before did
FAILS = 'end failure:illegal-transfer:0001001C:00000000\nturns 8\noutput -\n'
GOOD = 'end exit:5\nturns 12\noutput 68690a\n'


def program(place, answer, status=0):
    """A program in `place` that answers every `plain` with one text, and keeps its words."""
    path = os.path.join(place, 'program')
    with open(path, 'w', encoding='ascii') as file:
        file.write(f'#!/bin/sh\necho "$@" >> {place}/words\ncat {place}/answer\nexit {status}\n')
    with open(os.path.join(place, 'answer'), 'w', encoding='ascii') as file:
        file.write(answer)
    os.chmod(path, stat.S_IRWXU)
    return path


def beside(answer, status=0, report='two-slots.txt', job='two-slots.json'):
    """What is told of plain runs, in one line, and the words that the program got."""
    with tempfile.TemporaryDirectory() as place:
        done = show(report, '--job', job, '--program', program(place, answer, status))
        with open(os.path.join(place, 'words'), encoding='ascii') as file:
            words = file.read()
    return ' '.join(done.stdout[done.stdout.index('Plain beside patched'):].split()), words, done


class Beside(unittest.TestCase):
    def test_plain_fails(self):
        told, words, _ = beside(FAILS)
        self.assertIn('entry 5: plain illegal transfer at 0001001C; patched bad load at 00010028; no output from either',
                      told)
        self.assertIn('entry 6: plain illegal transfer at 0001001C; patched exit 9', told)
        self.assertNotIn('WARNING', told)
        # both runs have the same input, so one plain run is made
        self.assertEqual(words, 'plain two-slots.bin 1000 0000000000000000\n')

    def test_plain_exits(self):
        told, _, done = beside(GOOD)
        self.assertEqual(told.count('WARNING: the plain run exits: the repair changed a run that was good'), 2)
        self.assertIn('only the plain run wrote', told)
        self.assertIn('WARNING 2 runs are good without patches, and were changed by a repair (entries 5, 6)',
                      ' '.join(done.stdout.split()))

    def test_program_that_fails(self):
        told, _, done = beside('', 4)
        self.assertIn('entries 5, 6: not compared: the program ended with status 4', told)
        self.assertEqual(done.returncode, 0)
        self.assertIn('did not answer as `plain` does', beside('end maybe\n')[0])

    def test_unlike_the_learn_runs(self):
        # the learn runs of the three workers exit with 2, 3, 4 and 10; the last repaired runs with 1
        told = ' '.join(show('three-workers.txt').stdout.split())
        self.assertIn('entries 24-31: an exit code that none of them has', told)

    def test_other_jobs(self):
        with open(os.path.join(DATA, 'two-slots.json'), encoding='ascii') as file:
            job = json.load(file)
        for change, why in (({'budget': 999}, 'budget 999, in the report 1000'),
                            ({'rounds': job['rounds'][:1]}, 'rounds 1'),
                            ({'rounds': [dict(job['rounds'][0], mode='live'), job['rounds'][1]]}, 'run 0 is live'),
                            ({'rounds': 3}, 'it is no job; `tools/make_job.py --explain'),
                            ({'rounds': [dict(job['rounds'][0], inputs=['00', '616'])]},
                             'round 0, input 1 is no even number')):
            with tempfile.NamedTemporaryFile('w', suffix='.json', dir=DATA) as file:
                json.dump({**job, **change}, file)
                file.flush()
                done = show('two-slots.txt', '--job', file.name)
            self.assertEqual((done.returncode, done.stdout), (3, ''))
            self.assertIn(why, done.stderr)
        self.assertEqual(show('two-slots.txt', '--job', 'missing.json').returncode, 6)
        self.assertEqual(show('two-slots.txt', '--elf', 'two-slots.bin').returncode, 3)


if __name__ == '__main__':
    unittest.main()
