#!/usr/bin/env python3
"""build.py: proves and builds the program and the crates below it, crates that do not stand on each
other side by side: at most one for each processor, and for each 4 GB of memory that is free.
It says on standard error how far it is. What is done stays under crates/NAME/out, so a run that was
stopped goes on from there. The status is 1 where a crate is not proved."""
import os
import pathlib
import subprocess
import sys
import tempfile
import time

TOP = pathlib.Path(__file__).resolve().parent.parent
PROGRAM = 'clearview'
EACH_KIB = 4 * 1024 * 1024


def say(text):
    print(f'clearview: {text}', file=sys.stderr, flush=True)


def crates():
    """The program and the crates below it, each with those that it names; the kit's are left out."""
    lines = [line.split('#')[0] for line in (TOP / 'crates.txt').read_text().splitlines()]
    named = {line.split(':')[0].split()[0]: line.split(':')[1].split() for line in lines if ':' in line}
    below, todo = {}, [PROGRAM]
    while todo:
        name = todo.pop()
        if name not in below:
            below[name] = [it for it in named[name] if it in named]
            todo += below[name]
    return below


def length(name):
    """How much there is to prove, in bytes of text."""
    folder = TOP / 'crates' / name
    return sum(path.stat().st_size for kind in ('*.rt', '*.antt') for path in folder.rglob(kind)
               if 'out' not in path.relative_to(folder).parts)


def urgency(below):
    """The longest way from each crate up to the program, in bytes of text: the longer, the sooner."""
    above = {name: [it for it in below if name in below[it]] for name in below}
    found = {}

    def of(name):
        if name not in found:
            found[name] = length(name) + max([of(it) for it in above[name]], default=0)
        return found[name]
    return {name: of(name) for name in below}


def lanes():
    """How many crates may be proved at once."""
    try:
        lines = pathlib.Path('/proc/meminfo').read_text().splitlines()
        free = next(int(line.split()[1]) for line in lines if line.startswith('MemAvailable:'))
    except (OSError, StopIteration):
        free = EACH_KIB
    return max(1, min(len(os.sched_getaffinity(0)), free // EACH_KIB))


def start(name):
    # `rt run` proves and links the program; what it runs here is the program's own example.
    words = ['rt', 'run', '--', 'plain', 'data/hello.bin', '1000', 'none'] if name == PROGRAM else ['rt', 'lib']
    log = tempfile.TemporaryFile('w+')
    run = subprocess.Popen(words, cwd=TOP / 'crates' / name, stdin=subprocess.DEVNULL, stdout=log, stderr=log)
    return run, log, time.monotonic()


def build(below):
    """Proves and builds all. After a failure nothing new is started, and what runs is let to its end;
    it gives the crates that failed, each with what was said of it."""
    first, most = urgency(below), lanes()
    done, running, failed = set(), {}, {}
    while running or not failed and len(done) < len(below):
        ready = [name for name in below if name not in done and name not in running
                 and all(it in done for it in below[name])]
        chosen = [] if failed else sorted(ready, key=lambda it: -first[it])[:most - len(running)]
        for name in chosen:
            say(f'crate {len(done) + len(running) + 1} of {len(below)}: {name}')
            running[name] = start(name)
        time.sleep(0.1)
        for name, (run, log, since) in list(running.items()):
            if run.poll() is None:
                continue
            del running[name]
            if run.returncode:
                log.seek(0)
                failed[name] = log.read()
                continue
            done.add(name)
            say(f'{name} is proved and built, in {time.monotonic() - since:.0f} s; {len(below) - len(done)} left')
    return failed


def main():
    failed = build(crates())
    for name, text in failed.items():
        sys.stderr.write(text)
        say(f'{name} was not built')
    return 1 if failed else 0


if __name__ == '__main__':
    try:
        sys.exit(main())
    except KeyboardInterrupt:
        say('stopped; the next start goes on from here')
        sys.exit(130)
