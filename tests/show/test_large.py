"""Reports at the limits: 16 workers and 1,024 runs, and 100,000 lines, in a time that grows with the text."""
import re
import time
import unittest

import common  # noqa: F401
import generate
from showlib.facts import facts_of
from showlib.page import page
from showlib.places import Places
from showlib.reading import read
from showlib.text import tell


def timed(text):
    """The text and the page of a report, and the seconds that both took."""
    start = time.monotonic()
    report = read(text)
    facts = facts_of(report)
    places = Places()
    told, html = tell('x', report, facts, places), page('x', report, facts, places)
    return told, html, time.monotonic() - start


class Large(unittest.TestCase):
    def test_thousand_runs(self):
        text = generate.community(repairs=6)
        told, html, _ = timed(text)
        self.assertIn('runs           1,024 in 2 rounds by 16 workers', told)
        self.assertEqual(len(re.findall(r'<a href="#entry-\d+" class="bar ', html)), 1024)
        self.assertEqual(len(re.findall(r'<details class="case" ', html)), len(re.findall(r'^case ', text, re.M)))

    def test_hundred_thousand_lines(self):
        text = generate.community(repairs=1500)
        self.assertGreater(text.count('\n'), 100000)
        told, html, seconds = timed(text)
        self.assertIn('1,024 in 2 rounds', told)
        self.assertLess(len(html), 10_000_000)
        self.assertLess(seconds, 30)


if __name__ == '__main__':
    unittest.main()
