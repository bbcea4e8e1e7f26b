#!/usr/bin/env python3
"""orders.py PROGRAM: what `infer` learns does not depend on the order and the grouping of the
learn runs, on live rounds between them, or on runs that fail. The last line is
`N passed, M failed`; the status is 1 where a case failed."""
import json
import os

from program import ends, run

IMAGE = os.path.join(os.path.dirname(os.path.abspath(__file__)), '..', 'examples', 'calling.bin')
A, B, BAD = '24000100', '2C000100', '00000000'

# rounds of one job each; a live round is marked
JOBS = [
    [('learn', [A, B])],
    [('learn', [B, A])],
    [('learn', [A]), ('learn', [B])],
    [('learn', [B]), ('learn', [A, A, B])],
    [('learn', [A]), ('live', [BAD, A]), ('learn', [B, B])],
    [('live', [BAD]), ('learn', [BAD, B, A]), ('learn', [BAD])],
]


def main():
    with open(IMAGE, 'rb') as file:
        image = file.read()
    texts = []
    for workers, rounds in [(w, r) for w in (1, 2, 16) for r in JOBS]:
        job = {'image': 'image.bin', 'workers': workers, 'checks': 2, 'budget': 1000,
               'rounds': [{'mode': mode, 'inputs': inputs} for mode, inputs in rounds]}
        done = run(['infer', 'job.json'], {'image.bin': image, 'job.json': json.dumps(job).encode()})
        texts.append((rounds, done.returncode, done.stdout))
    wanted = texts[0][2]
    failed = 0
    for rounds, status, text in texts:
        if (status, text) != (0, wanted) or not text.endswith('\nlearned 43\n'):
            failed += 1
            print(f'{rounds}: status {status}, another text')
    ends(len(texts), failed)


if __name__ == '__main__':
    main()
