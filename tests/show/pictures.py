#!/usr/bin/env python3
"""pictures.py [PROGRAM]: makes the pictures under docs/pictures anew, with Chromium. PROGRAM makes the plain runs."""
import os
import subprocess
import sys
import tempfile

from common import CALLING, DATA, TOP, show
from generate import community
from test_browser import BROWSER

DARK = '--blink-settings=preferredColorScheme=0'
PARCELS = 'examples/faults/parcels/job.json'
# name, report (none: it is made), words, width and height in pixels, flags of the browser
PICTURES = (
    ('indirect-call', CALLING, ('--job', 'examples/calling.json'), 1000, 1230, ()),
    ('two-slots', 'two-slots.txt', ('--job', f'{DATA}/two-slots.json'), 1000, 1560, ()),
    ('three-workers', 'three-workers.txt', (), 1000, 1180, (DARK,)),
    ('thousand-runs', None, (), 1000, 1000, ()),
    ('parcels', None, ('--job', PARCELS, '--elf', 'examples/faults/parcels/O1.elf'), 1000, 1640, ()),
)


def made(name, program):
    """The text of a report that is made: of a thousand runs, or of the job of the parcels."""
    if name != 'parcels':
        return community(faults=12, repairs=6)
    return subprocess.run([program, 'run', PARCELS], cwd=TOP, capture_output=True, text=True, check=True).stdout


def picture(name, report, words, width, height, flags, program):
    """Makes one picture."""
    with tempfile.TemporaryDirectory() as place:
        path = os.path.join(DATA, report) if report else os.path.join(place, f'{name}.txt')
        if not report:
            with open(path, 'w', encoding='ascii') as file:
                file.write(made(name, program))
        out = os.path.join(place, 'page.html')
        done = show(path, *words, '--program', program, '--html', out, cwd=TOP)
        if done.returncode or done.stderr:
            sys.exit(done.stderr)
        subprocess.run([BROWSER, '--headless', '--no-sandbox', '--disable-gpu', '--hide-scrollbars',
                        f'--user-data-dir={place}/profile', f'--window-size={width},{height}', *flags,
                        f'--screenshot={TOP}/docs/pictures/show-{name}.png', 'file://' + out],
                       check=True, capture_output=True, timeout=60)


if __name__ == '__main__':
    for each in PICTURES:
        picture(*each, os.path.abspath(sys.argv[1] if len(sys.argv) > 1 else
                                       os.path.join(TOP, 'crates', 'clearview', 'out', 'clearview')))
