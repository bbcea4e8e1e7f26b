#!/usr/bin/env python3
"""cases.py PROGRAM [--cases N] [--calls C] [--runs R] [--rounds K]: what runs pay for patches that they do not meet.
A guest has N procedures (64) of which each fails by an illegal call, so that a live run opens a case with 64
candidates; behind N such runs 64 N checks are installed. Then R live runs (32) make C calls (200,000) each of another
procedure, where no patch stands. Printed is the processor time of `run` on that job against that on the same with one
case of few candidates, as the ratio of medians of K rounds (5), both in turn, and how many cases and candidates
either report has."""
import argparse
import json
import os
import resource
import statistics
import struct
import subprocess
import sys
import tempfile

BASE = 0x10000
ENTRY = ['addi x10,x0,0', 'addi x11,x2,-16', 'addi x12,x0,8', 'addi x17,x0,63', 'ecall',  # reads two words
         'lw x6,-16(x2)', 'lw x7,-12(x2)']
CALL = ['addi x2,x2,-16', 'sw x1,0(x2)', 'jalr x1,0(x7)', 'lw x1,0(x2)', 'addi x2,x2,16', 'jalr x0,0(x1)']


def source(cases):
    """The guest's lines: word 0 of the input chooses a procedure, word 1 is an address to call or a count."""
    lines = list(ENTRY)
    for number in range(cases + 2):  # the failing ones, one with few invariants, the loop
        lines += [f'addi x9,x0,{number}', f'bne x6,x9,not{number}', f'jal x1,proc{number}', 'jal x0,end', f'not{number}:']
    lines += ['end: addi x17,x0,93', 'addi x10,x0,0', 'ecall']
    body = [f'add x{28 + place % 4},x7,x6' for place in range(24)]
    for number in range(cases):
        lines += [f'proc{number}:'] + body + CALL
    lines += [f'proc{cases}:'] + CALL
    lines += [f'proc{cases + 1}:', 'addi x2,x2,-16', 'sw x1,0(x2)', 'again: jal x1,leaf', 'addi x7,x7,-1', 'bne x7,x0,again',
              'lw x1,0(x2)', 'addi x2,x2,16', 'jalr x0,0(x1)', 'leaf: addi x5,x5,1', 'jalr x0,0(x1)']
    return lines


def leaf_of(lines):
    """The address of the procedure that is called where nothing fails."""
    place = sum(1 for line in lines[:next(k for k, line in enumerate(lines) if line.startswith('leaf:'))] if not line.endswith(':'))
    return BASE + 4 * place


def words(*numbers):
    return struct.pack(f'<{len(numbers)}I', *numbers).hex()


def processor_time(command):
    """Seconds of processor time of a command, and what it printed."""
    before = resource.getrusage(resource.RUSAGE_CHILDREN).ru_utime
    done = subprocess.run(command, capture_output=True, text=True)
    if done.returncode:
        sys.exit(f'{command}: status {done.returncode}: {done.stdout[:200]}{done.stderr[:200]}')
    return resource.getrusage(resource.RUSAGE_CHILDREN).ru_utime - before, done.stdout


def main():
    parser = argparse.ArgumentParser(description=__doc__, formatter_class=argparse.RawDescriptionHelpFormatter)
    parser.add_argument('program')
    parser.add_argument('--cases', type=int, default=64)
    parser.add_argument('--calls', type=int, default=200_000)
    parser.add_argument('--runs', type=int, default=32)
    parser.add_argument('--rounds', type=int, default=5)
    given = parser.parse_args()
    program, cases = os.path.abspath(given.program), given.cases
    lines = source(cases)
    leaf = leaf_of(lines)
    good = [words(number, leaf) for number in range(cases + 1)]
    loops = [words(cases + 1, given.calls)] * given.runs
    failing = {'many cases': [words(number, 1) for number in range(cases)],
               'one case': [words(cases, 1)] + good[1:cases]}
    with tempfile.TemporaryDirectory() as place:
        os.chdir(place)
        with open('cases.s', 'w', encoding='ascii') as file:
            file.write('\n'.join(lines) + '\n')
        with open('cases.bin', 'wb') as file:
            subprocess.run([program, 'asm', 'cases.s'], stdout=file, check=True)
        for name, live in failing.items():
            with open(f'{name}.json', 'w', encoding='ascii') as file:
                json.dump({'image': 'cases.bin', 'workers': 1, 'checks': 8, 'budget': 10_000_000, 'rounds': [
                    {'mode': 'learn', 'inputs': good}, {'mode': 'live', 'inputs': live}, {'mode': 'live', 'inputs': loops}]}, file)
        times = {name: [] for name in failing}
        for turn in range(given.rounds + 1):
            for name in failing:
                seconds, report = processor_time([program, 'run', f'{name}.json'])
                if turn:
                    times[name].append(seconds)
                else:
                    told = [line.split()[0] for line in report.splitlines()]
                    print(f'{name}: {told.count("case")} cases, {told.count("candidate")} candidates')
        middle = {name: statistics.median(each) for name, each in times.items()}
        print(f'{middle["many cases"]:.3f} s against {middle["one case"]:.3f} s: {middle["many cases"] / middle["one case"]:.2f}')


if __name__ == '__main__':
    main()
