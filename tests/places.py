"""How `kept` is run: in a folder that stays between calls, with a job, its image and the file in which rounds are
kept. Words tell what differs from what was expected; cases are pairs of a name and a call that gives such words."""
import json
import os
import subprocess
import sys
import tempfile
from concurrent.futures import ThreadPoolExecutor

from pieces import NAME, rounds_of

JOBS = os.path.join(os.path.dirname(os.path.abspath(__file__)), 'jobs')
KEPT, SECONDS = ('kept', 'job.json'), 60


class Place:
    """A folder with a job and its image, where words are run one after another."""

    def __init__(self, image, job, kept=None):
        self.folder = tempfile.TemporaryDirectory(prefix='kept-')
        self.path = self.folder.name
        os.chmod(self.path, 0o755)
        self.write('image.bin', image)
        self.ask(job)
        if kept is not None:
            self.write(NAME, kept)

    def __enter__(self):
        return self

    def __exit__(self, *_):
        os.chmod(self.path, 0o755)
        self.folder.cleanup()

    def at(self, name=NAME):
        return os.path.join(self.path, name)

    def write(self, name, content):
        with open(self.at(name), 'wb') as file:
            file.write(content)

    def ask(self, job):
        self.write('job.json', json.dumps(job).encode())

    def kept(self):
        """The bytes of the file, no bytes where there is none."""
        if not os.path.isfile(self.at()):
            return b''
        with open(self.at(), 'rb') as file:
            return file.read()

    def call(self, words=KEPT, output=subprocess.PIPE, **more):
        """Status, output and error lines of words; no status where they do not end, or cannot be started."""
        try:
            done = subprocess.run([sys.argv[1], *words], cwd=self.path, stdout=output, stderr=subprocess.PIPE,
                                  text=True, timeout=SECONDS, **more)
        except (OSError, subprocess.SubprocessError) as error:
            return None, '', str(error)
        return done.returncode, done.stdout, done.stderr

    def start(self):
        """A call that goes on."""
        return subprocess.Popen([sys.argv[1], *KEPT], cwd=self.path, stdout=subprocess.PIPE, stderr=subprocess.PIPE, text=True)

    def report(self):
        """What `run` writes."""
        status, report, error = self.call(['run', 'job.json'])
        assert (status, error) == (0, ''), (status, error)
        return report


def differs(what, told, wanted):
    """Words where two values differ, nothing where they are equal."""
    if told == wanted:
        return []
    if isinstance(told, bytes) and isinstance(wanted, bytes):
        at = next((at for at, pair in enumerate(zip(told, wanted)) if pair[0] != pair[1]), min(len(told), len(wanted)))
        told, wanted, what = told[at:], wanted[at:], f'{what}, from byte {at} on'
    return [f'{what}: {str(told)[:250]}, expected {str(wanted)[:250]}']


def content(name, file):
    with open(os.path.join(JOBS, name, file), 'rb') as stored_file:
        return stored_file.read()


def stored(name, **fields):
    """Image and job of a stored job, some fields changed."""
    return content(name, 'image.bin'), {**json.loads(content(name, 'job.json')), **fields}


def with_inputs(job, *inputs):
    """A job with other inputs, round by round."""
    return {**job, 'rounds': [{**each, 'inputs': list(data)} for each, data in zip(job['rounds'], inputs)]}


def reported(name, **fields):
    """Image, job and report of a stored job, some fields changed, and the pieces of its rounds."""
    image, job = stored(name, **fields)
    with Place(image, job) as place:
        report = place.report()
    return image, job, report, rounds_of(report, job)


class Results:
    """Counts cases, and tells those that failed."""

    def __init__(self):
        self.count = self.failed = 0

    def add(self, name, faults):
        self.count += 1
        if faults:
            self.failed += 1
            print(f'{name}: {"; ".join(faults[:3])}')

    def side_by_side(self, cases):
        with ThreadPoolExecutor(os.cpu_count()) as pool:
            for (name, _), faults in zip(cases, pool.map(lambda case: list(case[1]()), cases)):
                self.add(name, faults)

    def one_by_one(self, cases):
        for name, case in cases:
            self.add(name, list(case()))
