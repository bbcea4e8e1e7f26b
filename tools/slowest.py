#!/usr/bin/env python3
"""slowest.py PID: watches the proofs that a process starts, until it is told to stop, and prints
which took most processor time: a crate's own, its tests', or its must-fail edits'. It reads /proc,
and prints nothing where there is none."""
import collections
import os
import signal
import sys
import time

TICKS = os.sysconf('SC_CLK_TCK')
EVERY_SECONDS = 0.5
SHOWN = 15


def stat_of(pid):
    """The parent, the start and the processor seconds of a process, without its children's."""
    with open(f'/proc/{pid}/stat', encoding='utf-8', errors='replace') as file:
        fields = file.read().rpartition(')')[2].split()
    return int(fields[1]), fields[19], (int(fields[11]) + int(fields[12])) / TICKS


def kind_of(pid):
    """What a process proves, as (crate, kind), or None where it proves nothing."""
    with open(f'/proc/{pid}/cmdline', encoding='utf-8', errors='replace') as file:
        words = file.read().split('\0')
    if '--crate-name' not in words:
        return None
    folder = os.path.basename(os.readlink(f'/proc/{pid}/cwd'))
    kind = 'edits' if folder.startswith('rt-edit') else 'tests' if '--test' in words else 'proof'
    return words[words.index('--crate-name') + 1], kind


def look(top, kinds, seconds):
    """One look at all processes below `top`."""
    parents, found = {}, {}
    for pid in filter(str.isdigit, os.listdir('/proc')):
        try:
            parents[int(pid)], start, used = stat_of(pid)
            found[int(pid)] = (int(pid), start), used
        except (OSError, ValueError, IndexError):
            pass
    for pid, (key, used) in found.items():
        above = parents.get(pid)
        while above and above != top:
            above = parents.get(above)
        if above != top:
            continue
        try:
            kinds[key] = kinds[key] if key in kinds else kind_of(pid)
        except OSError:
            continue
        if kinds[key]:
            seconds[key] = used


def table(kinds, seconds):
    sums, totals = collections.Counter(), collections.Counter()
    for key, used in seconds.items():
        sums[kinds[key]] += used
        totals[kinds[key][1]] += used
    lines = ['processor seconds of proofs in this run, the slowest first:']
    lines += [f'{used:8.0f}  {crate}: {kind}' for (crate, kind), used in sums.most_common(SHOWN)]
    lines += [f'{used:8.0f}  all: {kind}' for kind, used in totals.most_common()]
    return '\n'.join(lines)


def main():
    kinds, seconds, stopped = {}, {}, []
    signal.signal(signal.SIGTERM, lambda *_: stopped.append(True))
    signal.signal(signal.SIGINT, signal.SIG_IGN)
    top = int(sys.argv[1])
    while not stopped and os.path.exists(f'/proc/{top}'):
        look(top, kinds, seconds)
        time.sleep(EVERY_SECONDS)
    if seconds:
        print(table(kinds, seconds), flush=True)


if __name__ == '__main__':
    main()
