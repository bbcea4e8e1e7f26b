#!/usr/bin/env python3
"""faults.py PROGRAM: the programs of examples/faults. Built as they are, they do with good inputs what the
fixed program does, and something else with each failing one; the fixed program exits with each. Under
qemu-riscv32 good inputs give the same, and failing ones in the fixed program (there is no heap service
there; the kit's `malloc` makes do). The kept images are what the compiler makes of the sources at -O1, and the jobs what tools/make_job.py makes of
the files. What needs the compiler or the emulator is left out where these are missing. The last line is
`N passed, M failed`; the status is 1 where a case failed."""
import os
import shutil
import subprocess
import sys
import tempfile
from concurrent.futures import ThreadPoolExecutor

from program import builds_the_kept, ends

TOP = os.path.abspath(os.path.join(os.path.dirname(os.path.abspath(__file__)), '..'))
os.environ['CLEARVIEW'] = os.path.abspath(sys.argv[1])
sys.path.insert(0, os.path.join(TOP, 'examples', 'faults'))
import evaluate  # noqa: E402
import make_job  # noqa: E402


def told(entry):
    return entry['end'], entry['output']


def plain_runs(name):
    """What goes wrong in the plain runs of a program: a learn round is run without repairs."""
    wanted = evaluate.wanted_of(name)
    every = list(wanted)
    job = make_job.make(evaluate.image_of(name, 'O1'), [('learn', every)], 1, evaluate.CHECKS, evaluate.BUDGET)
    done = dict(zip(every, evaluate.run(job).entries))
    failing = evaluate.inputs(name, 'failing')
    wrong = [f'{name}: {value} fails in the fixed program' for value in every if not evaluate.report.exited(wanted[value])]
    wrong += [f'{name}: {value} has another end than its kind' for value in every
              if (told(done[value]) == told(wanted[value])) == (value in failing)]
    if shutil.which('qemu-riscv32'):
        wrong += [f'{name}: {value} ends otherwise under qemu' for value in evaluate.inputs(name, 'good')
                  if under_qemu(evaluate.image_of(name, 'O1'), value) != told(done[value])]
        wrong += [f'{name}: {value} ends otherwise in the fixed program under qemu' for value in failing
                  if under_qemu(evaluate.image_of(name, 'fixed'), value) != told(wanted[value])]
    return wrong


def under_qemu(image, value):
    done = subprocess.run(['qemu-riscv32', os.path.join(TOP, image)], input=bytes.fromhex(value),
                          capture_output=True, timeout=60)
    return f'exit:{done.returncode}', done.stdout.hex() or '-'


def kept_job(name):
    with open(os.path.join(TOP, 'examples', 'faults', name, 'job.json'), encoding='utf-8') as file:
        text = file.read()
    job = evaluate.job_of(name, 'O1', evaluate.inputs(name, 'learn'))
    return [] if text == make_job.text_of(job) and not make_job.faults(job) else [f'{name}: job.json is not of its files']


def built_anew(names):
    """Which kept images another build does not give."""
    if not builds_the_kept():
        return []
    with tempfile.TemporaryDirectory() as place:
        shutil.copytree(os.path.join(TOP, 'guest'), os.path.join(place, 'guest'))
        shutil.copytree(os.path.join(TOP, 'examples', 'faults'), os.path.join(place, 'examples', 'faults'),
                        ignore=shutil.ignore_patterns('*.elf', 'learn', 'good', 'failing'))
        targets = [evaluate.image_of(name, 'O1') for name in names]
        done = subprocess.run(['make', '-s', '-j', '4', '-f', 'examples/faults/Makefile', *targets], cwd=place,
                              capture_output=True, text=True, timeout=300)
        if (done.returncode, done.stderr) != (0, ''):
            return [f'the programs do not build: {done.stderr}']
        return [f'{image} is not what is kept' for image in targets if not equal(place, image)]


def equal(place, image):
    with open(os.path.join(place, image), 'rb') as made, open(os.path.join(TOP, image), 'rb') as kept:
        return made.read() == kept.read()


def main():
    names = evaluate.programs()
    with ThreadPoolExecutor(4) as pool:
        wrong = [found for found in pool.map(plain_runs, names) if found] + [f for f in map(kept_job, names) if f]
    anew = built_anew(names)
    wrong += [anew] if anew else []
    for found in wrong:
        print('\n'.join(found))
    ends(2 * len(names) + 1, len(wrong))


if __name__ == '__main__':
    main()
