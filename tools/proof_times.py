#!/usr/bin/env python3
"""proof_times.py NAME [COUNT]: proves a crate from nothing, one function after the other, and prints
the functions whose proofs took most processor time, lemmas that are first read for them included.
The crates below it are to be built (`rt lib`). It keeps nothing and counts for no verdict."""
import os
import pathlib
import resource
import subprocess
import sys

TOP = pathlib.Path(__file__).resolve().parent.parent
TICKS = os.sysconf('SC_CLK_TCK')


def command(name):
    kit = pathlib.Path(subprocess.run(['rt', 'doc'], capture_output=True, text=True, check=True).stdout.strip()).parent
    lines = [line.split('#')[0] for line in (TOP / 'crates.txt').read_text().splitlines()]
    named = {line.split(':')[0].split()[0]: line.split(':')[1].split() for line in lines if ':' in line}
    root = 'main' if (TOP / 'crates' / name / 'src' / 'main.rt').exists() else 'lib'
    words = [f'{kit}/bin/rattle', 'check', '--crate-name', name, f'src/{root}.rt',
             '--extern', f'std={kit}/rlibs/std.rlib', '-L', f'dependency={kit}/rlibs']
    for it in named[name]:
        folder = TOP / 'crates' / it / 'out' / 'rlib' if it in named else kit / 'rlibs'
        words += ['--extern', f'{it}={folder}/{it}.rlib', '-L', f'dependency={folder}']
    return words + ['--antt-project', f'{kit}/rattle/logic/antt-project.json',
                    '--logic-built', f'{kit}/logic_built', '--jobs', '1', '--progress']


def used_by(pid):
    """The processor seconds of a process and of its children that have ended."""
    with open(f'/proc/{pid}/stat', encoding='utf-8') as file:
        fields = file.read().rpartition(')')[2].split()
    return sum(map(int, fields[11:15])) / TICKS


def main():
    name, count = sys.argv[1], int(sys.argv[2]) if len(sys.argv) > 2 else 10
    run = subprocess.Popen(command(name), cwd=TOP / 'crates' / name, stdin=subprocess.DEVNULL,
                           stdout=subprocess.PIPE, stderr=subprocess.STDOUT, text=True)
    before, times, last = 0.0, [], ''
    for line in run.stdout:
        last = line.rstrip()
        if line.startswith('checked '):
            now = used_by(run.pid)
            start = '' if times else ' (with the start of the check, some 12 s)'
            times.append((now - before, line.split(',')[0].removeprefix('checked ') + start))
            before = now
    run.wait()
    for seconds, function in sorted(times, reverse=True)[:count]:
        print(f'{seconds:8.1f}  {function}')
    used = resource.getrusage(resource.RUSAGE_CHILDREN)
    print(f'{used.ru_utime + used.ru_stime:8.1f}  all {len(times)} functions of {name}: {last}')
    return run.returncode


if __name__ == '__main__':
    sys.exit(main())
