"""tests/legal.py, which judges a report by itself: it finds nothing in sound reports of several workers, and in
spoilt ones what is wrong there."""
import json
import os
import sys
import unittest

from common import CALLING, DATA, TOP, text_of

sys.path.insert(0, os.path.join(TOP, 'tests'))
from legal import faults_of  # noqa: E402

THREE = text_of('three-workers.txt')


def job_of(name):
    with open(os.path.join(DATA, name), encoding='ascii') as file:
        return json.load(file)


def without(text, number):
    """The report without one entry, the others numbered anew."""
    lines = [line for line in text.split('\n') if not line.startswith(f'entry {number} ')]
    return '\n'.join(f'entry {int(line.split(" ")[1]) - 1} {line.split(" ", 2)[2]}'
                     if line.startswith('entry ') and int(line.split(' ')[1]) > number else line for line in lines)


def swapped(text, first, second):
    """The report with two entries in each other's place."""
    lines = text.split('\n')
    one, other = (next(place for place, line in enumerate(lines) if line.startswith(f'entry {number} '))
                  for number in (first, second))
    rest = [lines[place].split(' ', 2)[2] for place in (one, other)]
    lines[one], lines[other] = f'entry {first} {rest[1]}', f'entry {second} {rest[0]}'
    return '\n'.join(lines)


def changed(number, old, new):
    """The report of three workers with a change in one entry."""
    line = next(line for line in THREE.split('\n') if line.startswith(f'entry {number} '))
    assert old in line, (number, old)
    return THREE.replace(line, line.replace(old, new, 1), 1)


SPOILT = [
    # a report, and what is said of it
    (without(THREE, 31), 'run 29 has no entry'),
    (without(THREE, 18), 'run 3 has no entry'),
    (changed(31, 'run 29', 'run 28'), 'run 28 has an entry before'),
    (changed(31, 'run 29', 'run 28'), 'run 29 has no entry'),
    (changed(26, 'run 24', 'run 25'), 'run 25 has an entry before'),
    (swapped(THREE, 22, 23), 'an earlier round waits for a run'),
    (changed(21, 'worker 0', 'worker 1'), 'worker 1 took run 22 before'),
    (changed(23, 'mode learn', 'mode live'), 'run 23 is learn'),
    (changed(11, '2:1,3:1', '3:1,2:1'), 'do not rise'),
    (changed(11, '2:1,3:1', '2:1,2:1'), 'do not rise'),
    (changed(10, '3:2', '2:2'), 'its worker or an earlier round had 3'),
    (changed(31, '4:2', '3:2'), 'its worker or an earlier round had 4'),
    (changed(3, '0:2', '1:2'), 'it adopts 1, and 0 was the newest before it'),
    (changed(9, '2:2', '3:2'), 'it adopts 3, and 2 was the newest before it'),
    (changed(11, '2:1,3:1', '2:1,4:1'), 'it adopts 4, and 3 was the newest before it'),
    (changed(16, '4:2', '4:0'), 'no row counts nothing'),
    (changed(16, '4:2', '-'), 'a live run something'),
    (changed(1, 'adopted -', 'adopted 0:2'), 'a learn run adopts nothing'),
    (changed(16, '4:2', '4:18'), '18 block entries in 17 turns'),
    (changed(16, 'turns 17', 'turns 129'), '2 block entries in 129 turns'),
    (changed(16, 'turns 17', 'turns 1001'), '1001 turns'),
    (changed(16, 'end exit:3', 'end budget'), '17 turns'),
    (changed(9, 'sites 0001002C', 'sites 00010034'), 'its sites are not those of its end'),
    (changed(16, 'sites -', 'sites 00010034'), 'its sites are not those of its end'),
    (changed(28, 'exit:1', 'exit:2'), 'has its input, under the same versions, and another end'),
    (changed(3, 'turns 12', 'turns 13'), 'has its input, in which no repair fired either, and another end'),
    (changed(4, '0.0:1:0:held,0.1', '0.1:1:0:held,0.1'), 'rows out of order'),
    (changed(3, 'tally -', 'tally 0.0:1:0:held'), 'of no patch of its versions'),
    (changed(16, 'fired 0.1:1', 'fired 0.0:1'), 'of no patch of its versions'),
    (THREE.replace('version 2 entry 6', 'version 2 entry 5'), 'the versions are'),
    (THREE.replace('patches 65', 'patches 64'), 'the versions are'),
    (THREE.replace('install entry 9', 'install entry 10'), 'the changes are'),
    (THREE.replace('withdraw entry 12 case 0 repair 0', 'withdraw entry 12 case 0 repair 1'), 'the changes are'),
    (THREE.replace('opened 3 checked 3', 'opened 5 checked 3'), 'the cases are'),
    (THREE.replace('opened 3 checked 3', 'opened 3 checked 2'), 'checked, state and repair are'),
    (THREE.replace('state installed:1', 'state installed:0'), 'checked, state and repair are'),
    (THREE.replace('class not', 'class slightly', 1), 'is not'),
    (THREE.replace('wins 10 fails 0 score 11', 'wins 10 fails 0 score 10'), 'wins, fails and score of repair'),
    (THREE[:-4], 'before its line `end`'),
]


class Legal(unittest.TestCase):
    def test_sound(self):
        for text, job in ((THREE, 'three-workers.json'), (text_of(CALLING), '../../jobs/bad-call/job.json'),
                          (text_of('two-slots.txt'), 'two-slots.json')):
            self.assertEqual(faults_of(text, job_of(job)), [], job)

    def test_spoilt(self):
        job = job_of('three-workers.json')
        for text, words in SPOILT:
            self.assertTrue(text != THREE, words)
            found = faults_of(text, job)
            self.assertTrue(any(words in fault for fault in found), f'{words}: {found[:3]}')

    def test_of_another_job(self):
        job = job_of('three-workers.json')
        self.assertIn('the job line says', faults_of(THREE, {**job, 'workers': 4})[0])
        self.assertIn('the job line says', faults_of(THREE, {**job, 'rounds': job['rounds'][:3]})[0])
        rounds = [{**each, 'mode': 'live'} for each in job['rounds']]
        self.assertIn('is live', faults_of(THREE, {**job, 'rounds': rounds})[0])


if __name__ == '__main__':
    unittest.main()
