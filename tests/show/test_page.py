"""The page as text: its counts are the report's, it is well formed, and it asks the network for nothing."""
import os
import re
import tempfile
import unittest
from html.parser import HTMLParser

from common import CALLING, show, text_of
from showlib.facts import facts_of
from showlib.page import page
from showlib.places import Places
from showlib.reading import read

VOID = {'meta', 'link', 'br'}
NAMES = (CALLING, 'two-slots.txt', 'three-workers.txt', 'sixty-four-cases.txt', 'no-repairs.txt')


class Elements(HTMLParser):
    """Counts elements by class and keeps their ids and links; each has to be closed where it was opened."""

    def __init__(self, text):
        super().__init__()
        self.open, self.classes, self.ids, self.links, self.wrong = [], {}, [], [], []
        self.feed(text)
        self.close()

    def handle_starttag(self, tag, attrs):
        attrs = dict(attrs)
        name = ' '.join([tag] + (attrs.get('class') or '').split())
        self.classes[name] = self.classes.get(name, 0) + 1
        self.ids += [attrs['id']] if 'id' in attrs else []
        self.links += [attrs[key] for key in ('href', 'src') if key in attrs]
        if tag not in VOID:
            self.open.append(tag)

    def handle_startendtag(self, tag, attrs):
        self.handle_starttag(tag, attrs)
        if tag not in VOID:
            self.open.pop()

    def handle_endtag(self, tag):
        if not self.open or self.open.pop() != tag:
            self.wrong.append((tag, self.getpos()))

    def count(self, *words):
        """How many elements have the tag and these classes."""
        return sum(number for name, number in self.classes.items() if set(words) <= set(name.split()))


def made(name):
    text = text_of(name)
    report = read(text)
    return text, page(name, report, facts_of(report), Places())


class Page(unittest.TestCase):
    def test_counts(self):
        for name in NAMES:
            text, html = made(name)
            found = Elements(html)
            self.assertEqual((found.wrong, found.open), ([], []), name)
            # counted in the report's own lines
            for classes, pattern in ((('a', 'bar'), r'^entry '), (('a', 'bar', 'failure'), r' end failure:'),
                                     (('a', 'bar', 'exit'), r' end exit:'), (('a', 'bar', 'budget'), r' end budget'),
                                     (('a', 'bar', 'learn'), r' mode learn '), (('a', 'bar', 'fired'), r' fired \d'),
                                     (('details', 'run'), r'^entry '), (('details', 'case'), r'^case ')):
                self.assertEqual(found.count(*classes), len(re.findall(pattern, text, re.M)), (name, classes))
            entries = {which: set(re.findall(rf'^{which} entry (\d+)', text, re.M))
                       for which in ('install', 'withdraw')}
            self.assertEqual(found.count('a', 'mark', 'installed'), len(entries['install']), name)
            self.assertEqual(found.count('a', 'mark', 'withdrawn'), len(entries['withdraw']), name)

    def test_links(self):
        for name in NAMES:
            found = Elements(made(name)[1])
            self.assertEqual(len(found.ids), len(set(found.ids)), name)
            outside = [link for link in found.links if not link.startswith('#') and link != 'data:,']
            self.assertEqual(outside, [], name)
            self.assertEqual([link for link in found.links if link[0] == '#' and link[1:] not in found.ids], [], name)

    def test_alone(self):
        html = made('two-slots.txt')[1]
        self.assertEqual(re.findall(r'https?://|@import|url\(|fetch\(|XMLHttp', html), [])

    def test_outputs(self):
        # text, markup, escapes, the page's own cut, and the limit
        text = text_of(CALLING)
        for output in (b'<b>&\x00', b'a' * 5000, b'z' * 16384):
            text = text.replace('output -', 'output ' + output.hex(), 1)
        report = read(text)
        html = page('x', report, facts_of(report), Places())
        self.assertIn('<pre class="bytes">&lt;b&gt;&amp;<i class="esc">\\x00</i></pre>', html)
        self.assertIn('cut here: 4,096 of 5,000 bytes are shown', html)
        self.assertEqual(html.count('<b class="cut">cut by the limit</b>'), 1)
        self.assertIn('1 run reached the limit of its output', html)

    def test_written(self):
        with tempfile.TemporaryDirectory() as place:
            out = os.path.join(place, 'page.html')
            done = show('two-slots.txt', '--job', 'two-slots.json', '--program', 'none', '--html', out)
            self.assertEqual((done.returncode, done.stdout), (0, ''))
            with open(out, encoding='utf-8') as file:
                html = file.read()
        self.assertIn('28000100 00000100', html)
        self.assertIn('now it is set to the second, 00010030', html)
        self.assertEqual(show('two-slots.txt', '--html', 'none/page.html').returncode, 6)


if __name__ == '__main__':
    unittest.main()
