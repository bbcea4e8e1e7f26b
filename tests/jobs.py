#!/usr/bin/env python3
"""jobs.py PROGRAM: what tools/make_job.py says of a job is what the program does with it: the tool finds a
fault exactly where `check` refuses the job, and its words name the round and the input. The last line is
`N passed, M failed`; the status is 1 where a case failed."""
import json
import os
import subprocess
import sys
import tempfile

from program import HELLO, ends, run

TOOL = os.path.join(os.path.dirname(os.path.abspath(__file__)), '..', 'tools', 'make_job.py')


def job(**changed):
    fields = {'image': 'p.bin', 'workers': 1, 'checks': 2, 'budget': 1000,
              'rounds': [{'mode': 'learn', 'inputs': ['00']}, {'mode': 'live', 'inputs': ['', 'aB01']}]}
    fields.update(changed)
    return json.dumps({name: value for name, value in fields.items() if value is not None}).encode()


def live(*inputs):
    return job(rounds=[{'mode': 'learn', 'inputs': ['00']}, {'mode': 'live', 'inputs': list(inputs)}])


# the file, and what the tool's words have to have, nothing where the job is accepted
CASES = [
    (job(), None), (job(workers=16, checks=8, budget=10_000_000), None), (live('00' * 65_536), None),
    (live(*['00'] * 1023), None), (job(rounds=[{'mode': 'live', 'inputs': ['00']}] * 64), None),
    (b'{', 'no JSON'), (b'[]', 'no JSON object'), (b'{"image":NaN}', 'no JSON'), (b'\xff', 'no JSON'),
    (job(image=''), '`image`'), (job(image=None), '`image`'), (job(workers=0), '`workers`'),
    (job(workers=17), '`workers`'), (job(checks=1), '`checks`'), (job(checks=9), '`checks`'),
    (job(budget=0), '`budget`'), (job(budget=10_000_001), '`budget`'), (job(budget=True), '`budget`'),
    (job(budget=5.0), '`budget`'), (job(rounds=[]), '`rounds`'),
    (job(rounds=[{'mode': 'live', 'inputs': ['00']}] * 65), '`rounds`'),
    (job(rounds=[{'mode': 'both', 'inputs': ['00']}]), 'round 0 has no mode'),
    (job(rounds=[{'mode': 'live', 'inputs': []}]), 'round 0 has no list'),
    (live('00', '0'), 'round 1, input 1 has an odd number of digits, 1'),
    (live('0g'), "round 1, input 0 has 'g'"), (live('00' * 65_537), 'round 1, input 0 is too long: 65537 bytes'),
    (live(7), 'round 1, input 0 is no string'), (live(*['00'] * 1024), '1025 inputs'),
]


def explained(content):
    with tempfile.NamedTemporaryFile() as file:
        file.write(content)
        file.flush()
        return subprocess.run([sys.executable, TOOL, '--explain', file.name], capture_output=True, text=True, timeout=60)


def main():
    failed = 0
    for content, words in CASES:
        done = run(['check', 'job.json'], {'job.json': content, 'p.bin': HELLO})
        told = explained(content)
        right = (3, 3) if words else (0, 0)
        if (done.returncode, told.returncode) != right or (words or '') not in told.stderr:
            failed += 1
            print(f'{content[:120]}: {done}, {told}')
    ends(len(CASES), failed)


if __name__ == '__main__':
    main()
