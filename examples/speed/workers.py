#!/usr/bin/env python3
"""workers.py PROGRAM [--loop NAME] [--runs N]... [--turns T] [--rounds K]: what workers gain. For jobs of N live
runs (64, and 1,000) of T turns each (live_job.py) the wall time of `run` with 1, 4 and 16 workers, and of four
processes of one worker side by side, with a quarter of the runs each: that is what the machine itself can gain.
Times are medians of K rounds (5) behind one that is not counted, all sides in turn. The peak of resident memory
is that of the largest round; the last line is that of 16 workers over a text of the largest size."""
import argparse
import json
import os
import statistics
import subprocess
import sys
import tempfile
import time

import live_job

WORKERS, SIDES, MOST_WORDS = (1, 4, 16), 4, 65_536


def timed(program, jobs):
    """Runs the jobs side by side: seconds, and the peak of resident memory of the largest in MiB."""
    start = time.perf_counter()
    children = [subprocess.Popen([program, 'run', job], stdout=subprocess.DEVNULL) for job in jobs]
    ended = [os.wait4(child.pid, 0) for child in children]
    seconds = time.perf_counter() - start
    for child, (_, status, _) in zip(children, ended):
        child.returncode = os.waitstatus_to_exitcode(status)
        if child.returncode:
            sys.exit(f'{child.args}: status {child.returncode}')
    return seconds, max(usage.ru_maxrss for _, _, usage in ended) / 1024


def written(image, runs, turns, workers):
    name = f'{os.path.basename(image)}-{runs}-{workers}.json'
    with open(name, 'w', encoding='ascii') as file:
        json.dump(live_job.job_of(image, runs, turns, workers), file)
    return name


def measure(program, image, runs, turns, rounds):
    """Prints the times of a job with each number of workers, and of processes side by side."""
    sides = {workers: [written(image, runs, turns, workers)] for workers in WORKERS}
    sides['processes'] = [written(image, runs // SIDES, turns, 1)] * SIDES
    times, peaks = {side: [] for side in sides}, dict.fromkeys(sides, 0)
    for turn in range(rounds + 1):
        for side, jobs in sides.items():
            seconds, peak = timed(program, jobs)
            times[side] += [seconds] if turn else []
            peaks[side] = max(peaks[side], peak)
    middle = {side: statistics.median(each) for side, each in times.items()}
    print(f'{runs} live runs of {turns} turns of {os.path.basename(image)}')
    for side in sides:
        words = f'{SIDES} processes of 1 worker, side by side' if side == 'processes' else f'{side} worker{"s" * (side > 1)}'
        print(f'  {words:40} {middle[side]:8.3f} s   {middle[1] / middle[side]:5.2f} times as fast as 1 worker   '
              f'{peaks[side]:6.0f} MiB')
    print(f'  16 workers take {middle[16] / middle[4]:.2f} of the time of 4; '
          f'4 workers reach {middle["processes"] / middle[4]:.2f} of what the machine can gain')


def main():
    parser = argparse.ArgumentParser(description=__doc__, formatter_class=argparse.RawDescriptionHelpFormatter)
    parser.add_argument('program')
    live_job.options(parser)
    parser.add_argument('--runs', type=int, action='append')
    parser.add_argument('--rounds', type=int, default=5)
    given = parser.parse_args()
    program, loop = os.path.abspath(given.program), given.loop + '.bin'
    print(f'{len(os.sched_getaffinity(0))} processors')
    with open(os.path.join(live_job.HERE, loop), 'rb') as file:
        text = file.read()
    with tempfile.TemporaryDirectory() as place:
        os.chdir(place)
        for name, content in ((loop, text), ('largest.bin', text.ljust(4 * MOST_WORDS, b'\0'))):
            with open(name, 'wb') as file:
                file.write(content)
        for runs in given.runs or (64, 1000):
            measure(program, loop, runs, given.turns, given.rounds)
        _, peak = timed(program, [written('largest.bin', 64, given.turns, 16)])
        print(f'16 workers over a text of {MOST_WORDS} words: {peak:.0f} MiB')
        os.chdir('/')


if __name__ == '__main__':
    main()
