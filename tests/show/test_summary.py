"""The summary and the stories, against counts that were worked out by hand of the reports' lines."""
import unittest

from common import CALLING, show, text_of
from showlib.facts import facts_of, why_dropped
from showlib.headline import story
from showlib.reading import read


def counted(name):
    report = read(text_of(name))
    return report, facts_of(report)


class Summary(unittest.TestCase):
    def test_indirect_call(self):
        # two good learn runs; the first failure opens the case, two more are checked; the sixth run is repaired
        report, facts = counted(CALLING)
        self.assertEqual((tuple(facts.learn), tuple(facts.live)), ((2, 0, 0), (1, 3, 0)))
        self.assertEqual((facts.failures_before, facts.failures_after), ([2, 3, 4], []))
        self.assertEqual((facts.installed, facts.withdrawn, facts.first_repair), (1, 0, 4))
        self.assertEqual((facts.fired, tuple(facts.fired_ends)), ([5], (1, 0, 0)))
        self.assertEqual(facts.states, {'installed': 1, 'checking': 0, 'dropped': 0})
        self.assertEqual((facts.learn_not_exit, facts.output_full, facts.no_case, facts.missing), ([], [], [], 0))
        case = facts.cases[0]
        self.assertEqual((case.failures, case.checked, case.fired), ([2, 3, 4], [3, 4], {0: [5]}))
        self.assertEqual([tuple(span) for span in case.spans], [(0, 4, None)])
        self.assertEqual(case.violations, {0: (1, 1)})
        self.assertEqual(facts.newest, [0, 0, 1, 1, 2, 2])
        self.assertEqual(story(report, facts),
                         '3 of 4 live runs failed: 3 up to the first repair, 0 after it. 1 case: 1 repaired. '
                         'Repairs fired in 1 run: 1 exited.')

    def test_two_slots(self):
        # the first repair leads to another failure, a second case, and is withdrawn for the second one
        _, facts = counted('two-slots.txt')
        self.assertEqual((tuple(facts.learn), tuple(facts.live)), ((2, 0, 0), (1, 4, 0)))
        self.assertEqual((facts.failures_before, facts.failures_after), ([2, 3, 4], [5]))
        self.assertEqual((facts.installed, facts.withdrawn), (2, 1))
        self.assertEqual((facts.fired, tuple(facts.fired_ends)), ([5, 6], (1, 1, 0)))
        self.assertEqual(facts.states, {'installed': 1, 'checking': 1, 'dropped': 0})
        self.assertEqual([tuple(span) for span in facts.cases[0].spans], [(0, 4, 5), (1, 5, None)])
        self.assertEqual(facts.cases[0].fired, {0: [5], 1: [6]})
        self.assertEqual((facts.cases[1].failures, facts.cases[1].checked), ([5], []))

    def test_three_workers(self):
        # entry 18 began before the case was opened: it failed, but was not checked
        _, facts = counted('three-workers.txt')
        self.assertEqual((tuple(facts.learn), tuple(facts.live)), ((4, 0, 0), (19, 9, 0)))
        self.assertEqual((facts.failures_before, facts.failures_after), ([3, 5, 6, 7, 9], [10, 11, 12, 18]))
        self.assertEqual(facts.cases[0].failures, [3, 5, 7, 9, 18])
        self.assertEqual((facts.cases[0].checked, facts.cases[1].checked), ([5, 7, 9], [10, 11, 12]))
        self.assertEqual((len(facts.fired), tuple(facts.fired_ends)), (18, (17, 1, 0)))

    def test_sixty_four_cases(self):
        report, facts = counted('sixty-four-cases.txt')
        self.assertEqual((facts.states['dropped'], facts.dropped['no candidates']), (64, 64))
        self.assertEqual((facts.no_case, facts.first_repair, facts.failures_after), ([64, 67, 69, 70], None, []))
        self.assertEqual(why_dropped(report.cases[63]), 'no candidates')

    def test_why_dropped(self):
        report, facts = counted('no-repairs.txt')
        self.assertEqual([why_dropped(case) for case in report.cases], ['none goes with it'])
        self.assertEqual(facts.dropped, {'no candidates': 0, 'none goes with it': 1, 'no repair': 0})
        report.cases[0].candidates[0] = report.cases[0].candidates[0]._replace(grade='highly')
        self.assertEqual(why_dropped(report.cases[0]), 'no repair')

    def test_full_outputs_and_bad_learn_runs(self):
        text = text_of(CALLING)
        text = text.replace('turns 11 sites - output -', 'turns 11 sites - output ' + '61' * 16384, 1)
        text = text.replace('end exit:9', 'end budget', 1)
        facts = facts_of(read(text))
        self.assertEqual((facts.output_full, facts.learn_not_exit, tuple(facts.learn)), ([0], [1], (1, 0, 1)))


class Told(unittest.TestCase):
    def test_text_of_the_two_slots(self):
        done = show('two-slots.txt', '--job', 'two-slots.json', '--program', 'none')
        self.assertEqual(done.returncode, 0)
        words = ' '.join(done.stdout.split())
        for part in ('3 up to the first repair (entries 2-4), 1 after it (entry 5)',
                     'Case 0: illegal transfer at 0001001C, repaired by repair 1',
                     'Before the call at 0001001C, t1 (x6) was always one of these two addresses: 00010028 or 00010030; '
                     'in every checked failure it was not; now it is set to the second, 00010030.',
                     'set t1 (x6) to 00010028 - 0 wins, 1 fail, score -1; in charge from entry 4 to 5',
                     'Case 1: bad load at 00010028, still being checked', 'called from 0001001C'):
            self.assertIn(part, words)
        self.assertIn('no plain runs', done.stderr)

    def test_every_report_is_told(self):
        for name in (CALLING, 'three-workers.txt', 'sixty-four-cases.txt', 'no-repairs.txt'):
            done = show(name)
            self.assertEqual((done.returncode, done.stderr), (0, ''), name)
        self.assertIn('Dropped at once: nothing was learned where it failed', show('sixty-four-cases.txt').stdout)


if __name__ == '__main__':
    unittest.main()
