"""Reading of reports: what is told of a good one, and where each broken one is refused."""
import unittest

from common import CALLING, show, text_of
from showlib.reading import NotReport, read

WHOLE = text_of(CALLING)


def refusal(text):
    """The line and the cause of a text that is no report."""
    try:
        read(text)
    except NotReport as error:
        return error.line, error.why
    return None


class Reading(unittest.TestCase):
    def test_fields(self):
        report = read(WHOLE)
        self.assertEqual(report.form, 2)
        self.assertEqual(tuple(report.job), (1, 2, 1000, 2, 6))
        entry = report.entries[3]
        self.assertEqual((entry.run, entry.worker, entry.mode, entry.adopted), (3, 0, 'live', [(1, 2)]))
        self.assertEqual((entry.end.kind, entry.end.pc, entry.end.detail), ('illegal-transfer', 0x10018, 0))
        self.assertEqual((entry.turns, entry.sites, entry.output), (7, [0x10018], b''))
        self.assertEqual((len(entry.tally(0)), entry.tally(1), entry.tally_counts()), (25, [], (25, 1)))
        self.assertEqual(tuple(entry.tally(0)[0]), (0, 0, 1, 1, True))
        self.assertEqual(tuple(entry.tally(0)[24]), (0, 40, 1, 0, False))
        self.assertEqual(tuple(report.entries[5].fired[0]), (0, 0, 1))
        case = report.cases[0]
        self.assertEqual((case.kind, case.pc, case.opened, case.checked, case.installed),
                         ('illegal-transfer', 0x10018, 2, 2, 0))
        self.assertEqual((len(case.candidates), len(case.repairs), report.learned), (43, 4, 43))
        self.assertEqual(case.candidates[0].invariant.values, (0x10024, 0x1002C))
        self.assertEqual(tuple(report.changes[0]), ('install', 4, 0, 0))

    def test_both_forms_and_many_workers(self):
        for name, form, cases in (('two-slots.txt', 2, 2), ('three-workers.txt', 2, 2), ('no-repairs.txt', 2, 1),
                                  ('sixty-four-cases.txt', 2, 64)):
            report = read(text_of(name))
            self.assertEqual((report.form, len(report.cases)), (form, cases), name)

    def test_no_cases(self):
        report = read('clearview report 1\njob workers 1 checks 2 budget 9 rounds 1 runs 1\n'
                      'entry 0 run 0 worker 0 mode live adopted 0:1 end budget turns 9 sites - output 6869 tally - '
                      'fired -\nversion 0 entry - patches 0\nlearned 0\nend\n')
        self.assertEqual((report.form, report.cases, report.entries[0].output), (1, [], b'hi'))

    def test_broken_lines(self):
        # what is changed, into what, the line that is named, and a part of the cause
        for old, new, line, why in (
                ('report 2', 'report 3', 1, 'first line'),
                ('checks 2', 'checks two', 2, "checks: 'two' is no number"),
                ('entry 1 run 1', 'entry 2 run 1', 4, 'entry 2 stands where entry 1 should'),
                ('run 5 worker 0', 'run 6 worker 0', 8, 'run: 6 is past the last one, 5'),
                ('run 5 worker 0', 'run 5 worker 1', 8, 'worker: 1 is past the last one, 0'),
                ('mode learn', 'mode lern', 3, "mode: 'lern' is none of learn, live"),
                ('exit:9', 'exit:-9', 4, "end: 'exit:-9' is no end of a run"),
                ('illegal-transfer:00010018', 'illegal-transfer:1018', 5, 'is no end of a run'),
                ('sites 00010018', 'sites 0001001', 5, 'list of addresses'),
                ('output -', 'output f', 3, "output: 'f' is no bytes"),
                ('0.0:1:1:failed', '0.0:1:1:fail', 6, 'tally'),
                ('fired 0.0:1', 'fired 0.4:1', 8, 'there is no repair 0.4'),
                ('adopted 2:4', 'adopted 3:4', 8, 'there is no version 3'),
                ('fired 0.0:1\n', 'fired 0.0:1 \n', 8, 'stands behind the end of the line'),
                ('version 1', 'version 2', 10, 'version 2 stands where version 1 should'),
                ('state installed:0', 'state installed:4', 12, 'there is no repair 0.4'),
                ('state installed:0', 'state fixed', 12, "state: 'fixed' is none of"),
                ('candidate 0.7 ', 'candidate 0.8 ', 20, 'candidate 0.8 stands where candidate 0.7 should'),
                ('x6 x2 class', 'x6 x32 class', 14, "register: 'x32' is no register"),
                ('class highly', 'class high', 13, "class: 'high' is none of"),
                ('candidate 0 skip', 'candidate 43 skip', 58, 'candidate: 43 is past the last one, 42'),
                ('install entry 4', 'install entry 6', 60, 'entry: 6 is past the last one, 5'),
                ('learned 43', 'learnt 43', 61, "'learnt' stands where"),
                ('learned 43\nend\n', 'end\n', 61, "'end' stands where"),
                ('43\nend\n', '43\n', 62, 'before its line `end`'),
                ('43\nend\n', '43\nend', 62, 'the report was cut'),
                ('43\nend\n', '43\nend\nend\n', 63, "'end' stands where nothing should"),
        ):
            text = WHOLE.replace(old, new, 1)
            place, told = refusal(text) or (None, 'it was read')
            self.assertEqual(place, line, f'{old} => {new}: {told}')
            self.assertIn(why, told)

    def test_empty(self):
        self.assertEqual(refusal(''), (1, 'the file is empty'))

    def test_cut_anywhere(self):
        for length in range(0, len(WHOLE), 13):
            self.assertIsNotNone(refusal(WHOLE[:length]))

    def test_command_names_the_place(self):
        done = show('no-repairs.txt', '--job', 'two-slots.json')
        self.assertEqual((done.returncode, done.stdout), (3, ''))
        self.assertIn('it is not the job of this report', done.stderr)
        done = show('two-slots.bin')
        self.assertEqual((done.returncode, done.stdout), (3, ''))
        self.assertIn('two-slots.bin: no report: line 1: ', done.stderr)
        done = show('missing.txt')
        self.assertEqual((done.returncode, done.stderr), (6, 'show: missing.txt: No such file or directory\n'))


if __name__ == '__main__':
    unittest.main()
