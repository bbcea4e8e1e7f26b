#!/usr/bin/env python3
"""live_job.py [--loop NAME] [--runs N] [--turns T] [--workers W] [-o FILE]: a job for `run` of N live runs (64)
of T turns each (1,000,000) of a loop of this folder (registers, memory or calls), with W workers (1). The loops
are longer than any budget, so each run ends with it; nothing fails, so each goes on under the empty table."""
import argparse
import json
import os
import sys

HERE = os.path.dirname(os.path.abspath(__file__))
LOOPS = 'registers', 'memory', 'calls'


def job_of(image, runs, turns, workers):
    """A job of one live round, whose runs have no input."""
    return {'image': image, 'workers': workers, 'checks': 2, 'budget': turns,
            'rounds': [{'mode': 'live', 'inputs': [''] * runs}]}


def options(parser):
    """The options that a job is made of, but for its workers."""
    parser.add_argument('--loop', choices=LOOPS, default=LOOPS[0])
    parser.add_argument('--turns', type=int, default=1_000_000)


def main():
    parser = argparse.ArgumentParser(description=__doc__, formatter_class=argparse.RawDescriptionHelpFormatter)
    options(parser)
    parser.add_argument('--runs', type=int, default=64)
    parser.add_argument('--workers', type=int, default=1)
    parser.add_argument('-o', metavar='FILE', type=argparse.FileType('w'), default=sys.stdout)
    given = parser.parse_args()
    image = os.path.relpath(os.path.join(HERE, given.loop + '.bin'))
    json.dump(job_of(image, given.runs, given.turns, given.workers), given.o)
    given.o.write('\n')


if __name__ == '__main__':
    main()
