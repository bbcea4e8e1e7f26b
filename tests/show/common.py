"""What the tests of `tools/show` share: its modules, its data, and how it is run."""
import os
import subprocess
import sys

HERE = os.path.dirname(os.path.abspath(__file__))
TOP = os.path.dirname(os.path.dirname(HERE))
DATA = os.path.join(HERE, 'data')
# the report of the example of docs/REPAIR.md, from the data
CALLING = '../../jobs/bad-call/report.txt'
sys.path.insert(0, os.path.join(TOP, 'tools'))


def text_of(name):
    """The report of that name among the data."""
    with open(os.path.join(DATA, name), encoding='ascii') as file:
        return file.read()


def show(*words, cwd=DATA):
    """`tools/show` with these words: status, output, error lines."""
    return subprocess.run([sys.executable, os.path.join(TOP, 'tools', 'show'), *words], cwd=cwd, capture_output=True,
                          text=True, timeout=60)
