#!/usr/bin/env python3
"""scarce.py PROGRAM: `run` with 16 workers where the system gives no thread, or little memory. Without threads
the report is a sound one all the same (tests/legal.py). With any limit on memory that lets the program start,
the answer is such a report, or the status and the line of refused memory and nothing else, and it comes: nothing
waits for ever. What cannot be limited here is left out. The last line is `N passed, M failed`; the status is 1
where a case failed."""
import json
import os
import resource
import subprocess
import sys
import tempfile
import threading

from legal import faults_of
from program import built, ends

NOBODY = 65534
REFUSED = 5, '', 'clearview: out of memory\n'  # docs/FORMATS.md, "Causes and statuses"
JOBS = os.path.join(os.path.dirname(os.path.abspath(__file__)), 'jobs')
WORKERS, MIB, MOST, STEPS = 16, 1 << 20, 768, 24


def no_threads():
    """In a child: no thread can be made, by whoever has no right to pass the limit."""
    if os.getuid() == 0:
        os.setgroups([])
        os.setgid(NOBODY)
        os.setuid(NOBODY)
    resource.setrlimit(resource.RLIMIT_NPROC, (0, 0))


def memory(mib):
    """In a child: so much memory can be mapped."""
    return lambda: resource.setrlimit(resource.RLIMIT_AS, (mib * MIB, mib * MIB))


def answer(words, place, limit):
    """Status, output and error lines of the words under a limit; None where the limit cannot be set, or no such
    child be started."""
    try:
        done = subprocess.run(words, cwd=place, preexec_fn=limit, capture_output=True, text=True, timeout=60)
    except (OSError, subprocess.SubprocessError) as error:
        if isinstance(error, subprocess.TimeoutExpired):
            return 'none after 60 s', '', ''
        return None
    return done.returncode, done.stdout, done.stderr


def fault_of(done, job, refusable):
    """What is wrong with an answer, nothing where nothing is."""
    if refusable and done == REFUSED:
        return []
    if (done[0], done[2]) != (0, ''):
        return [f'status {done[0]} {done[2]!r}, {len(done[1])} bytes of output']
    return faults_of(done[1], job)


def can_refuse_threads():
    """Whether a child under the limit cannot make a thread."""
    child = os.fork()
    if child == 0:
        try:
            no_threads()
            threading.Thread(target=int).start()
        except RuntimeError:
            os._exit(0)
        finally:
            os._exit(1)
    return os.waitstatus_to_exitcode(os.waitpid(child, 0)[1]) == 0


def without_threads(program, place, job):
    """Two reports without threads, where that can be had."""
    if not can_refuse_threads() or (answer([program, 'check', 'job.json'], place, no_threads) or [1])[0] != 0:
        print('threads cannot be refused here: left out')
        return []
    return [('no threads', fault_of(answer([program, 'run', 'job.json'], place, no_threads), job, False)) for _ in range(2)]


def with_little_memory(program, place, job):
    """A report, or the refusal, from the least memory with which the program starts."""
    starts = [mib for mib in range(4, 128, 4)
              if (answer([program, 'check', 'job.json'], place, memory(mib)) or [1])[0] == 0]
    if not starts:
        print('memory cannot be limited here: left out')
        return []
    limits = sorted({round(starts[0] * (MOST / starts[0]) ** (step / STEPS)) for step in range(STEPS + 1)})
    return [(f'{mib} MiB', fault_of(answer([program, 'run', 'job.json'], place, memory(mib)), job, True)) for mib in limits]


def main():
    program = built(sys.argv[1])
    with open(os.path.join(JOBS, 'bad-call', 'image.bin'), 'rb') as file:
        image = file.read()
    with open(os.path.join(JOBS, 'bad-call', 'job.json'), 'rb') as file:
        job = {**json.load(file), 'workers': WORKERS}
    job['rounds'] = [{**each, 'inputs': each['inputs'] * 12} for each in job['rounds']]
    with tempfile.TemporaryDirectory() as place:
        os.chmod(place, 0o755)
        for name, content in (('image.bin', image), ('job.json', json.dumps(job).encode())):
            with open(os.path.join(place, name), 'wb') as file:
                file.write(content)
        results = without_threads(program, place, job) + with_little_memory(program, place, job)
    failed = [(name, faults) for name, faults in results if faults]
    for name, faults in failed:
        print(f'{name}: {"; ".join(faults[:3])}')
    ends(len(results), len(failed))


if __name__ == '__main__':
    main()
