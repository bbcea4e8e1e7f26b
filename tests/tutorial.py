#!/usr/bin/env python3
"""tutorial.py PROGRAM: the commands of docs/TUTORIAL.md, one after the other in a copy of the files that
they name, write what the page shows. A block ```console has commands behind `$ ` and what they write; a
line `...` stands for any lines. Without the compiler that made the kept images these are taken; what needs
another tool of it is left out where that is missing. The last line is `N passed, M failed`; the status is 1
where a command wrote something else."""
import os
import re
import shutil
import subprocess
import sys
import tempfile

from program import builds_the_kept, ends

TOP = os.path.abspath(os.path.join(os.path.dirname(os.path.abspath(__file__)), '..'))
KEPT = 'cp examples/faults/parcels/O1.elf try/parcels.elf'


def commands():
    """Pairs of a command and the lines that it writes."""
    with open(os.path.join(TOP, 'docs', 'TUTORIAL.md'), encoding='utf-8') as page:
        blocks = re.findall(r'^```console\n(.*?)^```$', page.read(), flags=re.MULTILINE | re.DOTALL)
    for block in blocks:
        for part in re.split(r'^\$ ', block, flags=re.MULTILINE)[1:]:
            command, _, written = part.partition('\n')
            yield command, written


def runs(command):
    """The command to run, or None where its tool is missing."""
    if command.startswith('make '):
        return command if builds_the_kept() else KEPT
    lines = any(tool in command for tool in ('explain.py', 'evaluate.py', 'tools/show'))
    if lines and not shutil.which('riscv64-unknown-elf-addr2line') or 'objdump' in command and not builds_the_kept():
        return None
    return command


def fits(written, shown):
    pattern = ''.join('(?:.*\n)*' if line == '...\n' else re.escape(line) for line in shown.splitlines(True))
    return re.fullmatch(pattern, written) is not None


def main():
    done, failed, functions = 0, 0, ''
    with tempfile.TemporaryDirectory() as place:
        for folder in ('guest', 'tools', 'examples', 'docs'):
            shutil.copytree(os.path.join(TOP, folder), os.path.join(place, folder))
        with open(os.path.join(place, 'clearview'), 'w', encoding='utf-8') as script:
            script.write(f'#!/bin/sh\nexec "{os.path.abspath(sys.argv[1])}" "$@"\n')
        os.chmod(os.path.join(place, 'clearview'), 0o755)
        for command, shown in commands():
            if '() {' in command:
                functions += command + '\n'
            taken = runs(command)
            if taken is None:
                continue
            told = subprocess.run(['bash', '-c', functions + taken], cwd=place, capture_output=True, text=True, timeout=120)
            done += 1
            if told.stderr or not fits(told.stdout, shown):
                failed += 1
                print(f'$ {command}\n{told.stdout}{told.stderr}--- the page has\n{shown}')
    ends(done, failed)


if __name__ == '__main__':
    main()
