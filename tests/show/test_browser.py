"""The page in a real browser: no error on its console, its counts and its clicks. Skipped without Chromium."""
import os
import re
import shutil
import subprocess
import tempfile
import unittest

import generate
from common import text_of
from showlib.facts import facts_of
from showlib.page import page
from showlib.places import Places
from showlib.reading import read

BROWSER = shutil.which('chromium') or shutil.which('chromium-browser') or shutil.which('google-chrome')

# presses every button of the page and tells on the page what came of it
CLICKS = '''<script>
(() => {
  const told = {};
  const shown = () => document.querySelectorAll('.run:not([hidden])').length;
  const count = (name) => document.querySelectorAll(name).length;
  told.bars = count('a.bar');
  told.failures = count('a.bar.failure');
  told.all = shown();
  document.querySelectorAll('[data-filter]').forEach((button) => {
    button.click();
    told[button.dataset.filter + 'Listed'] = shown();
    told[button.dataset.filter + 'Named'] = Number(button.querySelector('b').textContent.replace(/,/g, ''));
  });
  const mark = document.querySelector('[data-mark]');
  if (mark) {
    mark.click();
    told.marked = count('a.bar.marked');
    mark.click();
    told.unmarked = count('a.bar.marked');
    document.querySelector('[data-list]').click();
    told.ofCase = shown();
  }
  const bars = document.querySelectorAll('a.bar');
  bars[bars.length - 1].dispatchEvent(new MouseEvent('click', { bubbles: true }));
  told.open = count('.run[open]');
  told.chosen = count('.run.chosen:not([hidden])');
  document.querySelector('#theme').click();
  told.theme = document.documentElement.dataset.theme;
  told.wide = document.documentElement.scrollWidth > window.innerWidth;
  document.body.setAttribute('data-told', JSON.stringify(told));
})();
</script></body>'''


def told_by(text, *flags):
    """What the browser tells of the page of a report, and what stood on its console."""
    report = read(text)
    html = page('report', report, facts_of(report), Places()).replace('</body>', CLICKS)
    with tempfile.TemporaryDirectory() as place:
        path = os.path.join(place, 'page.html')
        with open(path, 'w', encoding='utf-8') as file:
            file.write(html)
        done = subprocess.run(
            [BROWSER, '--headless', '--no-sandbox', '--disable-gpu', '--enable-logging=stderr', '--log-level=0',
             f'--user-data-dir={place}/profile', *flags, '--dump-dom', 'file://' + path],
            capture_output=True, text=True, timeout=60, check=True)
    told = re.search(r'data-told="([^"]*)"', done.stdout).group(1).replace('&quot;', '"')
    return (dict(re.findall(r'"(\w+)":("?\w+"?)', told)),
            [line for line in done.stderr.splitlines() if 'CONSOLE' in line])


@unittest.skipUnless(BROWSER, 'no Chromium')
class Browser(unittest.TestCase):
    def check(self, text, *flags):
        told, console = told_by(text, *flags)
        self.assertEqual(console, [])
        entries = len(re.findall(r'^entry ', text, re.M))
        self.assertEqual((told['bars'], told['all']), (str(entries), str(entries)))
        self.assertEqual(told['failures'], str(len(re.findall(r' end failure:', text))))
        for name in told:
            if name.endswith('Listed'):
                self.assertEqual(told[name], told[name.replace('Listed', 'Named')], name)
        self.assertEqual((told['chosen'], told['wide']), ('1', 'false'))
        self.assertEqual(told.get('unmarked', '0'), '0')
        return told

    def test_two_slots(self):
        told = self.check(text_of('two-slots.txt'))
        # case 0: three failures, and two runs in which a repair of it fired
        self.assertEqual((told['marked'], told['ofCase'], told['open'], told['theme']), ('5', '5', '1', '"dark"'))

    def test_dark(self):
        told = self.check(text_of('three-workers.txt'), '--blink-settings=preferredColorScheme=0')
        self.assertEqual(told['theme'], '"light"')

    def test_narrow(self):
        self.check(text_of('sixty-four-cases.txt'), '--window-size=400,800')

    def test_thousand_runs(self):
        self.check(generate.community(repairs=6), '--window-size=500,800')


if __name__ == '__main__':
    unittest.main()
