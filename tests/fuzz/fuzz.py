#!/usr/bin/env python3
"""fuzz.py PROGRAM [--seed S] [--count N] [--jobs J]: words, images, jobs, reports and kept files that nobody
would write, each made from the examples and from the stored jobs by a seed. Of every case it asks what
docs/FORMATS.md promises of every call: a status of the table, with its line and nothing else on standard
error; nothing on standard output with a refusal; a whole text of the right form with status 0, and of
`run` and `kept` a report that is sound by itself (tests/legal.py), the stored one where there is one; the
same answer again, but for a report of several workers by `run`, which is judged again; an end within the
turns that were asked for; and that `kept` loses no piece. A case that fails is printed with its seed, and
`--seed S --count 1` gives it again. The last line is `N passed, M failed`; the status is 1 where a case
failed."""
import argparse
import concurrent.futures
import json
import os
import pathlib
import random
import re
import struct
import subprocess
import sys
import tempfile

TOP = pathlib.Path(__file__).resolve().parents[2]
sys.path.insert(0, str(TOP / 'tests'))
from audits import edited  # noqa: E402
from legal import faults_of  # noqa: E402
from pieces import NAME, frame, pieces_of, rounds_of  # noqa: E402
SECONDS = 60
# the statuses of docs/FORMATS.md, "Causes and statuses", with the beginning of the line of each
LINES = {
    2: ('clearview: usage\n',),
    3: ('clearview: job too long\n', 'clearview: job refused: '),
    4: ('clearview: image too long\n', 'clearview: image refused: '),
    6: ('clearview: cannot read\n',),
    8: ('clearview: source too long\n', 'clearview: source refused: '),
    9: ('clearview: report too long\n', 'clearview: report refused: '),
    11: ('clearview: kept history refused: ',),
    12: ('clearview: no such file\n',),
}
PLAIN = re.compile(r'end (exit:\d+|budget|failure:[a-z-]+:[0-9A-F]{8}:[0-9A-F]{8})\nturns (\d+)\noutput (-|([0-9a-f]{2})+)\n\Z')
CHECK = re.compile(r'job workers \d+ checks \d+ budget \d+ rounds \d+ runs \d+\ntext [0-9A-F]{8} \d+ entry [0-9A-F]{8}\n\Z')
INFER = re.compile(r'((one-of|lower|less-than|sp-offset) .*\n)*learned \d+\n\Z')
REPORT = re.compile(r'clearview report \d\n(.*\n)*end\n\Z')
REPLAY = re.compile(r'(?:run (\d+) turn (\d+) pc [0-9A-F]{8} frames \d+ frame-sp [0-9A-F]{8}\n'
                    r'regs [0-9A-F]{8}(,[0-9A-F]{8}){30}\nsince (-|\d+)(,(-|\d+)){30}\n'
                    r'|wrong entry \d+ clause [1-7]\n|missing run \d+\n|no such (run|turn)\n)\Z')


def images():
    """The bytes of the images in examples/."""
    found = [path for pattern in ('*.bin', 'kit/*.elf', 'faults/*/*.elf') for path in sorted((TOP / 'examples').glob(pattern))]
    return [path.read_bytes() for path in found]


def stored():
    """The stored jobs, each with its image and its report, which come from outside."""
    return [{'job': (path / 'job.json').read_bytes(), 'image.bin': (path / 'image.bin').read_bytes(),
             'report': (path / 'report.txt').read_bytes()} for path in sorted((TOP / 'tests' / 'jobs').iterdir())]


IMAGES, STORED = images(), stored()
PIECES = {files['report']: rounds_of(files['report'].decode(), json.loads(files['job'])) for files in STORED}
INTERESTING = [0, 1, 2, 3, 4, 52, 0x7f, 0x80, 0xff, 0x7fff, 0x8000, 0xfffc, 0xffff, 0x10000, 0x10004,
               0x3ffffc, 0x400000, 0x7ffffc, 0x800000, 0x7fffffff, 0x80000000, 0xfffffffc, 0xffffffff]


def bent(rng, content):
    """Some bytes of a file changed, a word set, a part cut out, doubled or put behind it."""
    data = bytearray(content)
    for _ in range(rng.choice([1, 1, 1, 2, 3, 8, 40])):
        kind = rng.randrange(7)
        at = rng.randrange(min(len(data), rng.choice([64, 160, 1 << 20])) or 1) if data else 0
        if kind == 0 and data:
            data[at] ^= 1 << rng.randrange(8)
        elif kind == 1 and data:
            data[at] = rng.randrange(256)
        elif kind == 2 and len(data) >= 4:
            at = min(at, len(data) - 4) & ~3
            data[at:at + 4] = struct.pack('<I', rng.choice(INTERESTING) if rng.randrange(2) else rng.getrandbits(32))
        elif kind == 3:
            data = data[:at]
        elif kind == 4:
            del data[at:at + rng.choice([1, 2, 4, 16])]
        elif kind == 5:
            data[at:at] = data[at:at + rng.choice([1, 4, 32])]
        else:
            data += rng.randbytes(rng.choice([1, 3, 4, 64]))
    return bytes(data)


def words_image(rng):
    """A flat image of random words, most of them instructions of some row."""
    opcodes = [0x37, 0x17, 0x6f, 0x67, 0x63, 0x03, 0x23, 0x13, 0x33, 0x0f, 0x73]
    words = [rng.getrandbits(32) & ~0x7f | rng.choice(opcodes) if rng.randrange(8) else rng.getrandbits(32)
             for _ in range(rng.choice([1, 2, 5, 20, 100]))]
    return struct.pack(f'<{len(words)}I', *words)


def an_image(rng):
    return words_image(rng) if rng.randrange(3) == 0 else bent(rng, rng.choice(IMAGES))


def digits(rng, most):
    return rng.randbytes(rng.randrange(most)).hex()


def a_value(rng, depth=0):
    """A JSON value of any kind."""
    kind = rng.randrange(9 if depth < 3 else 7)
    if kind == 0:
        return rng.choice([None, True, False])
    if kind == 1:
        return rng.choice([0, 1, 2, 8, 16, 17, 64, 65, 10_000_000, 10_000_001, -1, 2 ** 32, 2 ** 64, 10 ** 30])
    if kind == 2:
        return rng.choice([0.5, 1.0, -0.0, 1e300])
    if kind in (3, 4):
        return rng.choice(['', 'image', 'learn', 'live', 'none', '00', '0', 'zz', 'a\x00b', '\u20ac', '-', '../image'])
    if kind in (5, 6):
        return digits(rng, 6)
    if kind == 7:
        return [a_value(rng, depth + 1) for _ in range(rng.randrange(4))]
    return {rng.choice(['image', 'mode', 'inputs', 'x']): a_value(rng, depth + 1) for _ in range(rng.randrange(4))}


def a_job(rng):
    """A job with at most two fields that are not as they have to be."""
    rounds = [{'mode': rng.choice(['learn', 'live', 'live']), 'inputs': [digits(rng, 12) for _ in range(rng.randrange(1, 5))]}
              for _ in range(rng.randrange(1, 5))]
    job = {'image': 'image', 'workers': rng.randrange(1, 17), 'checks': rng.randrange(2, 9),
           'budget': rng.choice([1, 2, 100, 3000]), 'rounds': rounds}
    for _ in range(rng.choice([0, 0, 1, 1, 2])):
        kind = rng.randrange(5)
        if kind == 0:
            job[rng.choice(list(job))] = a_value(rng)
        elif kind == 1:
            job.pop(rng.choice(list(job)))
        elif kind == 2:
            rng.choice(rounds)[rng.choice(['mode', 'inputs'])] = a_value(rng)
        elif kind == 3:
            rng.choice(rounds)['inputs'] = [a_value(rng, 3) for _ in range(rng.randrange(5))]
        else:
            job[rng.choice(['more', 'Image', 'rounds '])] = a_value(rng)
    # a run of ten million turns is no fault, but a thousand of them are a long test
    if isinstance(job.get('budget'), int) and 3000 < job['budget'] <= 10_000_000:
        job['budget'] = 3000
    content = json.dumps(job, ensure_ascii=bool(rng.randrange(2))).encode('utf-8', 'surrogatepass')
    return bent(rng, content) if rng.randrange(4) == 0 else content


def a_word(rng):
    return rng.choice(['', '-', '-x', 'image', 'job', 'none', '0', '1', '1000', '10000001', '00', '0g', 'run',
                       'kept', 'replay', 'report', 'plain', '0' * 21, '18446744073709551616', '\u0661', ' 1', '1 ', '+1', '../image', 'no\nfile'])


def spoilt(rng, text):
    """A text as it stands, with some places changed, or bent as any file."""
    for _ in range(rng.choice([0, 0, 1, 1, 1, 2, 5])):
        text = edited(text.decode('latin-1'), rng).encode('latin-1') if b'\n' in text else bent(rng, text)
    return bent(rng, text) if rng.randrange(6) == 0 else text


def a_stored_job(rng):
    """The files of a stored job, sometimes with other fields, or bent."""
    files = dict(rng.choice(STORED))
    if rng.randrange(4) == 0:
        job = json.loads(files['job'])
        job[rng.choice(['workers', 'workers', 'checks', 'budget'])] = rng.randrange(1, 9)
        job['rounds'] = rng.choice([job['rounds'], job['rounds'] * 2, job['rounds'][:-1], job['rounds'][1:]])
        files['job'] = json.dumps(job).encode()
    if rng.randrange(15) == 0:
        name = rng.choice(['job', 'image.bin'])
        files[name] = bent(rng, files[name])
    return files


def a_replay(rng):
    """A turn of a run of a report, which is spoilt, or sometimes of another job."""
    files = a_stored_job(rng)
    count = files['report'].count(b'\nentry ')
    files['report'] = spoilt(rng, files['report'] if rng.randrange(12) else rng.choice(STORED)['report'])
    run = rng.choice([rng.randrange(count + 1), rng.randrange(count + 1), rng.randrange(10_000)])
    turn = rng.choice([0, rng.randrange(12), rng.randrange(30), rng.randrange(10 ** rng.randrange(1, 9))])
    return ['replay', 'job', 'report', str(run), str(turn)], files


def other_pieces(rng, pieces):
    """Pieces of rounds, spoilt, joined, cut, dropped or moved."""
    pieces = list(pieces)
    for _ in range(rng.choice([0, 1, 1, 2])):
        at, kind = rng.randrange(len(pieces)), rng.randrange(6)
        if kind == 0:
            pieces[at] = spoilt(rng, pieces[at])
        elif kind == 1:
            pieces[at:at + 2] = [b''.join(pieces[at:at + 2])]
        elif kind == 2:
            cut = pieces[at].find(b'\n', rng.randrange(len(pieces[at]) + 1)) + rng.randrange(5) // 4 + 1
            pieces[at:at + 1] = [pieces[at][:cut], pieces[at][cut:]]
        elif kind == 3:
            pieces.insert(at + rng.randrange(2), rng.choice([pieces[at], b'', b'\n', rng.randbytes(9)]))
        elif kind == 4:
            pieces = pieces[:at + 1]
        else:
            rng.shuffle(pieces)
    return pieces


def a_kept_file(rng, pieces):
    """A file of pieces, with any gates, or cut, or with something behind, or bent."""
    frames = [frame(piece, rng.choice([1, 1, 1, rng.randrange(256)])) for piece in other_pieces(rng, pieces)]
    content = b''.join(frames) + b'\0'
    kind = rng.randrange(8)
    if kind == 0:
        return content[:rng.randrange(len(content))]
    if kind == 1:
        return content[:-1] + rng.randbytes(rng.choice([1, 5, 6, 300]))
    return rng.choice([bent(rng, content), rng.randbytes(50)]) if kind == 2 else content


def a_kept_job(rng):
    """A job on a file that keeps rounds of it, or something else, or on none."""
    if rng.randrange(5) == 0:
        return ['kept', 'job'], {'image': an_image(rng), 'job': a_job(rng)}
    files = a_stored_job(rng)
    return ['kept', 'job'], {**files, NAME: a_kept_file(rng, PIECES[files['report']])}


def a_case(seed):
    """Words, and files."""
    rng = random.Random(seed)
    files = {'image': an_image(rng), 'job': a_job(rng)}
    command = rng.choice(['plain', 'plain', 'check', 'infer', 'run', 'run', 'list', 'asm', 'replay', 'replay', 'kept', 'kept'])
    if command == 'replay':
        words, files = a_replay(rng)
    elif command == 'kept':
        words, files = a_kept_job(rng)
    elif command == 'plain':
        words = ['plain', 'image', str(rng.choice([1, 7, 1000, 50_000])), digits(rng, 40) or 'none']
    elif command in ('list', 'asm'):
        words = [command, 'image']
    else:
        words = [command, 'job']
    if rng.randrange(12) == 0:
        words[rng.randrange(len(words))] = a_word(rng)
    if rng.randrange(25) == 0:
        words.insert(rng.randrange(len(words) + 1), a_word(rng))
    if rng.randrange(40) == 0:
        files.pop(rng.choice(list(files)))
    return words, files


def job_of(words, files):
    """The job that is run, which was accepted."""
    return json.loads(files[words[1]].decode())


def known_report(files, otherwise):
    """The report of a stored job that was not changed."""
    return next((each['report'] for each in STORED if all(files.get(name) == each[name] for name in ('job', 'image.bin'))), otherwise)


def wrong_text(words, files, text):
    """What is wrong with a text that was written with status 0."""
    form = {'plain': PLAIN, 'check': CHECK, 'infer': INFER, 'run': REPORT, 'kept': REPORT, 'replay': REPLAY}.get(words[0])
    if form is None:
        return None
    shape = form.match(text.decode('utf-8', 'replace'))
    if not shape:
        return 'the text has another form'
    if words[0] == 'plain' and int(shape.group(2)) > int(words[2]):
        return 'more turns than the budget'
    if words[0] == 'replay' and shape.group(1) and [*map(int, shape.group(1, 2))] != [*map(int, words[3:])]:
        return 'another run, or another turn'
    if words[0] in ('run', 'kept'):
        if text != known_report(files, text):
            return 'not the stored report'
        return '; '.join(faults_of(text.decode(), job_of(words, files))[:3]) or None
    return None


def fault_of(words, files, done):
    """What is wrong with an answer, or None."""
    if done.returncode == 0:
        return 'a line on standard error' if done.stderr else wrong_text(words, files, done.stdout)
    if done.returncode not in LINES:
        return 'no such status'
    if done.stdout:
        return 'an output with a refusal'
    line = done.stderr.decode('utf-8', 'replace')
    if line.count('\n') != 1 or not line.endswith('\n') or not line.startswith(LINES[done.returncode]):
        return 'another line'
    return None


def fault_again(words, files, done, again):
    """What is wrong with the answer to the same words again, or None."""
    if (done.returncode, done.stdout, done.stderr) == (again.returncode, again.stdout, again.stderr):
        return None
    if words[0] == 'run' and done.returncode == again.returncode == 0 and job_of(words, files)['workers'] > 1:
        return fault_of(words, files, again)
    return 'another answer when it is asked again'


def fault_kept(words, done, before, after):
    """What is wrong with the kept file behind the calls, or None: `kept` adds pieces to it, and nothing else changes it."""
    if after == before:
        return None
    pieces = pieces_of(before or b'')[0]
    if words[0] != 'kept' or done.returncode not in (0, 11):
        return 'the kept file is another one'
    return None if pieces_of(after)[0][:len(pieces)] == pieces else 'the kept file has lost a piece'


def tried(program, seed):
    """The seed, and what is wrong with its case, or None."""
    words, files = a_case(seed)
    with tempfile.TemporaryDirectory() as place:
        kept = pathlib.Path(place) / NAME
        for name, content in files.items():
            (pathlib.Path(place) / name).write_bytes(content)
        try:
            done, again = (subprocess.run([program, *words], cwd=place, capture_output=True, timeout=SECONDS) for _ in range(2))
        except subprocess.TimeoutExpired:
            return seed, f'{words}: not done in {SECONDS} s'
        except ValueError as error:  # a word that no process can be given
            return seed, None if 'null' in str(error) else str(error)
        after = kept.read_bytes() if kept.exists() else None
    fault = (fault_of(words, files, done) or fault_again(words, files, done, again)
             or fault_kept(words, done, files.get(NAME), after))
    return seed, None if fault is None else f'{words}: {fault}: status {done.returncode}, {done.stderr[:200]!r}, {done.stdout[:200]!r}'


def main():
    parser = argparse.ArgumentParser(description='Cases that nobody would write.')
    parser.add_argument('program')
    parser.add_argument('--seed', type=int, default=1)
    parser.add_argument('--count', type=int, default=300)
    parser.add_argument('--jobs', type=int, default=os.cpu_count() or 1)
    given = parser.parse_args()
    program = os.path.abspath(given.program)
    failed = 0
    with concurrent.futures.ThreadPoolExecutor(given.jobs) as pool:
        for seed, fault in pool.map(lambda s: tried(program, s), range(given.seed, given.seed + given.count)):
            if fault:
                failed += 1
                print(f'seed {seed}: {fault}')
    print(f'{given.count - failed} passed, {failed} failed')
    sys.exit(1 if failed else 0)


if __name__ == '__main__':
    main()
