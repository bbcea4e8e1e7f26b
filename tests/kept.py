#!/usr/bin/env python3
"""kept.py PROGRAM [--kills N] [--every] [--seed S]: `kept`, each case in a folder of its own (docs/FORMATS.md, "The
kept file"). On no file it writes what `run` writes, and the file then has a piece for each round; a second call
changes nothing. A file that was cut, at every length of a small one and around the ends of the pieces of others, is
gone on with, as is one with more rounds behind those that are kept (--every: at every length of all, and files as
long as one piece may be). Files of other pieces, of another job or of a part of a round are refused, and keep their
pieces. N times over calls of a job of 20 rounds are killed at random moments until one ends by itself: the pieces
that were there are there each time, and the end is that of a call which nothing stopped. A disk that fails, is full,
is locked or cannot be opened loses nothing that was kept. No other command makes the file or changes it, nor does
`kept` with a job that is refused. What cannot be had here is left out. The last line is `N passed, M failed`; the
status is 1 where a case failed."""
import argparse
import fcntl
import os
import random
import resource
import signal
import subprocess
import sys
import time
from functools import partial

from legal import faults_of
from pieces import LONGEST, NAME, frame, lines_of, pieces_of, rounds_of, whole
from places import JOBS, KEPT, Place, Results, content, differs, reported, stored, with_inputs
from program import HELLO, built, ends
from threads import CALLER, FIRST, NOWHERE, call, flat

NOBODY = 65534
# docs/FORMATS.md, "Causes and statuses"
DISK_FAILED = 10, '', 'clearview: disk failed\n'
UNWRITTEN = 7, 'clearview: cannot write\n'
# stored jobs whose files are cut: at one of so many lengths, and so near to the ends of the pieces
CUTS, BEFORE, BEHIND = [('one-run-learned', 1), ('bad-call', 29), ('nothing-learned-there', 97)], 6, 12
# of the calls that are killed: the job's rounds, how often its long runs call a place, the seconds wanted of a call
ROUNDS, FEW, MOST, WANTED = 20, 1000, 60_000, 0.3
# files, their pieces and end places
READ = [(b'', [], 0), (b'\1\2\0\0\0ab\0', [b'ab'], 7), (b'\0\1\0\0\0a', [], 0),
        (b'\1\1\0\0\0a\xff\0\0\0\0\1\2\0\0\0b', [b'a', b''], 11)]


def read_as_told():
    """These tests read a file as docs/FORMATS.md says, "Pieces"."""
    for file, pieces, end in READ:
        yield from differs(str(file), pieces_of(file), (pieces, end))


# ---- on no file

def anew(name):
    """The report of `run`, and a piece for each round; a second call changes nothing."""
    image, job, report, pieces = reported(name)
    with Place(image, job) as place:
        for which in ('first', 'second'):
            yield from differs(f'{which} call', place.call(), (0, report, ''))
            yield from differs(f'file after the {which} call', place.kept(), whole(pieces))


def sound(place, job, done, before=()):
    """What is wrong behind a call of any number of workers: with its report, which begins with the pieces that were
    kept before, with the file, or with the next call."""
    status, report, error = done
    if (status, error) != (0, ''):
        return [f'status {status}, {error!r}']
    pieces = rounds_of(report, job)
    place.write('report.txt', report.encode())
    return [*faults_of(report, job),
            *differs('audit', place.call(['audit', 'job.json', 'report.txt']), (0, 'sound\ntext same\n', '')),
            *differs('pieces from before', pieces[:len(before)], list(before)),
            *differs('file', place.kept(), whole(pieces)),
            *differs('call again', place.call(), (0, report, '')),
            *differs('file after it', place.kept(), whole(pieces))]


def by_several(name, workers):
    """A report that is sound, and its rounds' pieces; the same again from the file."""
    image, job = stored(name, workers=workers)
    job = with_inputs(job, *(each['inputs'] * (1 if each['mode'] == 'learn' else 3) for each in job['rounds']))
    with Place(image, job) as place:
        yield from sound(place, job, place.call())


def beside_the_job():
    """The file is made in the current folder, wherever the job lies."""
    image, job, report, pieces = reported('bad-call')
    with Place(image, job) as place:
        os.mkdir(place.at('folder'))
        os.rename(place.at('job.json'), place.at('folder/job.json'))
        yield from differs('call', place.call(['kept', 'folder/job.json']), (0, report, ''))
        yield from differs('file', place.kept(), whole(pieces))
        yield from differs('files beside the job', os.listdir(place.at('folder')), ['job.json'])


# ---- on a file that holds some rounds

def goes_on(image, job, report, before):
    """A call on a file writes the report of one worker, leaves the pieces as they are, and keeps the rest of the
    entries; the next call changes nothing."""
    with Place(image, job, before) as place:
        yield from differs('call', place.call(), (0, report, ''))
        after, end = place.kept(), pieces_of(before)[1]
        yield from differs('bytes up to the end', after[:end], before[:end])
        yield from differs('lines', b''.join(pieces_of(after)[0]), b''.join(lines_of(report)))
        yield from differs('call again', place.call(), (0, report, ''))
        yield from differs('file after it', place.kept(), after)


def cut(image, job, report, pieces, length):
    """A file that ends after so many bytes: the rest is run and kept again."""
    with Place(image, job, whole(pieces)[:length]) as place:
        yield from differs('call', place.call(), (0, report, ''))
        yield from differs('file', place.kept(), whole(pieces))


def lengths(pieces, step):
    """The lengths at which a file of pieces is cut: one of so many, and those around the ends of its pieces."""
    most = len(whole(pieces))
    ends_at = [len(whole(pieces[:count])) - 1 for count in range(len(pieces) + 1)]
    near = {end + by for end in ends_at for by in range(-BEFORE, BEHIND)}
    return sorted(length for length in near | {*range(0, most, step)} if 0 <= length <= most)


def cuts(every):
    """A file cut at many lengths."""
    for name, step in CUTS:
        image, job, report, pieces = reported(name)
        for length in lengths(pieces, 1 if every else step):
            yield f'{name}, {length} bytes kept', partial(cut, image, job, report, pieces, length)


def header(length):
    """What stands before the bytes of a piece."""
    return b'\1' + length.to_bytes(4, 'little')


def others(first, live):
    """The bytes of other files that are gone on with, from the two pieces of the worked example."""
    lines = (first + live).splitlines(keepends=True)
    return [
        ('all rounds in one piece', whole([first + live])), ('a piece for each entry', whole(lines)),
        ('a piece over two rounds', whole([lines[0], b''.join(lines[1:])])),
        ('other gates', frame(first, 0xff) + frame(live, 2) + b'\0'),
        ('a gate that was not opened', frame(first) + frame(live, 0)),
        ('no gate that was opened', frame(first, 0) + frame(live)),
        ('zeros behind', whole([first]) + bytes(5000)), ('a rest behind', whole([first]) + b'\1rest' * 999),
        ('no byte behind', frame(first) + frame(live)),
        ('a torn piece that is longer than the next one', frame(first) + frame(live + b'rest' * 99)[:-1]),
        ('a torn piece with pieces in it', frame(first) + header(9999) + whole([live, live])),
        ('a length past the limit', frame(first) + header(LONGEST + 1) + live),
        ('a length at the limit, torn', frame(first) + header(LONGEST) + live),
        ('four bytes of a frame', frame(first) + b'\1\0\0\0'), ('one byte', b'\1'), ('no piece', b'entry 0 run 0'),
    ]


def other_files():
    image, job, report, pieces = reported('bad-call')
    for name, before in others(*pieces):
        yield name, partial(goes_on, image, job, report, before)
    image, job, report, _ = reported('bad-call', budget=11)
    yield 'a budget under which each run ends as it did', partial(goes_on, image, job, report, whole(pieces))


def large(length, status, line):
    """A file with one piece of as many bytes 00 as a piece may have, or one more, which is none."""
    image, job, report, _ = reported('bad-call')
    with Place(image, job, header(length)) as place:
        os.truncate(place.at(), 5 + length)
        yield from differs('call', place.call(), (status, '' if status else report, line))


def large_files():
    yield 'the longest piece', partial(large, LONGEST, 11, 'clearview: kept history refused: bad-piece 0\n')
    yield 'a piece that is too long', partial(large, LONGEST + 1, 0, '')


def round_by_round(name, counts):
    """A job that has more rounds at each call."""
    image, job = stored(name)
    before = []
    with Place(image, job) as place:
        for count in counts:
            part = {**job, 'rounds': job['rounds'][:count]}
            place.ask(part)
            report = place.report()
            pieces = rounds_of(report, part)
            yield from differs(f'{count} rounds', place.call(), (0, report, ''))
            yield from differs(f'file of {count} rounds', place.kept(), whole(pieces))
            yield from differs('pieces from before', pieces[:len(before)], before)
            before = pieces


def by_several_then(name, first, then):
    """Two rounds by so many workers, and then all by others."""
    image, job = stored(name, workers=first)
    with Place(image, job) as place:
        place.ask({**job, 'rounds': job['rounds'][:2]})
        yield from differs('status of the first rounds', place.call()[0], 0)
        before = pieces_of(place.kept())[0]
        job['workers'] = then
        place.ask(job)
        yield from sound(place, job, place.call(), before)


def more_rounds():
    """Rounds behind those that are kept: one by one, and all at once."""
    for name in ('bad-call', 'good-runs-learned', 'nothing-learned-there', 'return-out-of-a-frame'):
        last = len(stored(name)[1]['rounds'])
        yield f'{name}, one round more each time', partial(round_by_round, name, range(1, last + 1))
        for first in range(1, last):
            yield f'{name}, {first} rounds and then {last}', partial(round_by_round, name, (first, last))
    for name in ('good-runs-learned', 'nothing-learned-there'):
        for first, then in ((1, 3), (2, 2), (2, 4), (16, 16)):
            yield f'{name}, {first} workers and then {then}', partial(by_several_then, name, first, then)


# ---- files that are refused

def refused(image, job, before, fault):
    """A file that is refused, and keeps its pieces, each time that it is tried."""
    pieces, end = pieces_of(before)
    with Place(image, job, before) as place:
        for which in ('first', 'second'):
            wanted = 11, '', f'clearview: kept history refused: {fault}\n'
            yield from differs(f'{which} call', place.call(), wanted)
            yield from differs('bytes up to the end', place.kept()[:end], before[:end])
            yield from differs('pieces', pieces_of(place.kept())[0], pieces)


def budget_line(number):
    """The line of a learn run that its budget ended."""
    return (f'entry {number} run {number} worker 0 mode learn adopted - end budget turns 1 sites - output - tally - '
            'fired -\n').encode()


def changed(piece, *pairs):
    """A piece with the first place of some words changed."""
    for old, new in pairs:
        assert old in piece, old
        piece = piece.replace(old, new, 1)
    return piece


def bad_pieces(first, live):
    """Pieces that hold no entry lines, or some that do not go on, from those of the worked example; and the number
    of the first bad one."""
    lines = (first + live).splitlines(keepends=True)
    return [
        ('an empty piece', [b''], 0), ('an empty piece behind all', [first, live, b''], 2),
        ('an empty piece between', [first, b'', live], 1), ('a line feed', [b'\n'], 0),
        ('no line feed at the end', [first[:-1]], 0), ('none in the second piece', [first, live[:-1]], 1),
        ('a blank in its place', [first[:-1] + b' '], 0),
        ('an empty line', [first + b'\n'], 0), ('a word', [b'entry\n'], 0), ('a line cut', [lines[0][:-3] + b'\n'], 0),
        ('a byte behind a line', [first + b'\0'], 0), ('a carriage return', [changed(first, (b'\n', b'\r\n'))], 0),
        ('the first piece twice', [first, first], 1), ('the second piece first', [live, first], 0),
        ('a number left out', [lines[0] + lines[2]], 0), ('a number twice', [lines[0], lines[0]], 1),
        ('a zero before a number', [changed(first, (b'turns 11', b'turns 011'))], 0),
        ('a number past 32 bits', [changed(first, (b'turns 11', b'turns 4294967296'))], 0),
        ('a bad piece behind a wrong one', [changed(first, (b'exit:7', b'exit:8')), b'x\n'], 1),
        ('one piece more than there can be', [budget_line(number) for number in range(1025)], 1024),
    ]


def wrong_pieces(first, live):
    """Pieces of entries that are no history of the worked example: the first wrong entry, and the clause that it
    breaks (docs/REPAIR.md, "Audit")."""
    lines = (first + live).splitlines(keepends=True)
    return [
        ('as many pieces as there can be', [budget_line(number) for number in range(1024)], 0, 4),
        ('another end', [changed(first, (b'exit:7', b'exit:8')), live], 0, 4),
        ('another number of turns', [first, changed(live, (b'turns 7', b'turns 8'))], 2, 4),
        ('another worker', [changed(first, (b'worker 0', b'worker 1')), live], 0, 1),
        ('a run twice', [changed(first, (b'run 1', b'run 0'))], 1, 1),
        ('a run that is not there', [first, changed(live, (b'run 5', b'run 6'))], 5, 4),
        ('an earlier round that waits', [changed(lines[2], (b'entry 2', b'entry 0'))], 0, 2),
        ('runs that fall', [changed(lines[1], (b'entry 1', b'entry 0')), changed(lines[0], (b'entry 0', b'entry 1'))], 1, 3),
        ('versions that fall', [first, changed(live, (b'adopted 2:4', b'adopted 2:3,1:1'))], 5, 5),
        ('an older version', [first, changed(live, (b'adopted 2:4', b'adopted 1:4'))], 5, 6),
        ('a version that is not there', [first, changed(live, (b'adopted 2:4', b'adopted 3:4'))], 5, 7),
        ('a row that is not there', [first, changed(live, (b'fired 0.0:1', b'fired -'))], 5, 4),
        ('a wrong entry and a part of a round', [changed(first, (b'exit:9', b'exit:8')), lines[2]], 1, 4),
    ]


def other_jobs(job):
    """Jobs of which the rounds of the worked example are none, and what these are refused for."""
    learn, live = (each['inputs'] for each in job['rounds'])
    return [
        ('another budget', {**job, 'budget': 10}, 'wrong 0 4'),
        ('one more check', {**job, 'checks': 3}, 'wrong 5 7'),
        ('another learn input', with_inputs(job, [learn[0], live[0]], live), 'wrong 1 4'),
        ('learn inputs that change places', with_inputs(job, learn[::-1], live), 'wrong 0 4'),
        ('another live input', with_inputs(job, learn, [*live[:2], learn[0], *live[3:]]), 'wrong 4 4'),
        ('rounds that learn', {**job, 'rounds': [{**each, 'mode': 'learn'} for each in job['rounds']]}, 'wrong 2 4'),
        ('fewer rounds', {**job, 'rounds': job['rounds'][:1]}, 'wrong 2 4'),
        ('fewer runs in the last round', with_inputs(job, learn, live[:3]), 'wrong 5 4'),
        ('more runs in the first round', with_inputs(job, learn + learn, live), 'wrong 2 4'),
        ('more runs in the last round', with_inputs(job, learn, live + live[:1]), 'partial 1'),
    ]


def refusals():
    """Files that are refused: of pieces, of the same pieces with less or more behind them, and of another job."""
    image, job, _, (first, live) = reported('bad-call')
    lines = (first + live).splitlines(keepends=True)
    files = [(name, pieces, f'bad-piece {number}') for name, pieces, number in bad_pieces(first, live)]
    files += [(name, pieces, f'wrong {at} {clause}') for name, pieces, at, clause in wrong_pieces(first, live)]
    files += [('a part of the first round', lines[:1], 'partial 0'), ('a part of the second round', [first, *lines[2:4]], 'partial 1'),
              ('a piece over a round and a part', [first + lines[2]], 'partial 1')]
    for name, pieces, fault in files:
        for behind, rest in (('', b'\0'), (', no byte behind', b''), (', a torn piece behind', frame(live)[:99])):
            yield name + behind, partial(refused, image, job, whole(pieces)[:-1] + rest, fault)
    for name, other, fault in other_jobs(job):
        yield name, partial(refused, image, other, whole([first, live]), fault)
    more = with_inputs(job, [*job['rounds'][0]['inputs'], '24000100'], job['rounds'][1]['inputs'])
    yield 'one run more in the round that is kept', partial(refused, image, more, whole([first]), 'partial 0')
    yield 'another image', partial(refused, *stored('first-repair-fails'), whole([first, live]), 'wrong 0 4')


# ---- a disk that fails

def in_its_place(make):
    """Something that is no plain file."""
    image, job = stored('bad-call')
    with Place(image, job) as place:
        make(place.at())
        was = os.lstat(place.at())[:3]
        yield from differs('call', place.call(), DISK_FAILED)
        yield from differs('what is there', os.lstat(place.at())[:3], was)


def locked(kind):
    """A file that another process has locked, and then no longer."""
    image, job, report, pieces = reported('bad-call')
    before = whole(pieces[:1]) + b'\1rest'
    with Place(image, job, before) as place, open(place.at(), 'rb') as held:
        fcntl.flock(held, kind)
        yield from differs('call', place.call(), DISK_FAILED)
        yield from differs('file', place.kept(), before)
        fcntl.flock(held, fcntl.LOCK_UN)
        yield from differs('call without the lock', place.call(), (0, report, ''))


def unwritten():
    """An output that takes nothing: all rounds are kept, and the next call writes the report."""
    image, job, report, pieces = reported('bad-call')
    with Place(image, job) as place:
        with open('/dev/full', 'wb') as full:
            status, _, error = place.call(output=full)
        yield from differs('status and line', (status, error), UNWRITTEN)
        yield from differs('file', place.kept(), whole(pieces))
        yield from differs('call again', place.call(), (0, report, ''))


def other_disks():
    yield 'a folder in its place', partial(in_its_place, os.mkdir)
    yield 'a pipe in its place', partial(in_its_place, os.mkfifo)
    yield 'a link to itself in its place', partial(in_its_place, partial(os.symlink, NAME))
    yield 'locked', partial(locked, fcntl.LOCK_EX)
    yield 'locked for reading', partial(locked, fcntl.LOCK_SH)
    if os.path.exists('/dev/full'):
        yield 'a device in its place', partial(in_its_place, partial(os.symlink, '/dev/full'))
        yield 'an output that takes nothing', unwritten


def nobody():
    """In a child: a user without rights of his own."""
    os.setgroups([])
    os.setgid(NOBODY)
    os.setuid(NOBODY)


def without_rights(folder, file, before):
    """A folder and a file with such rights, which do not do: what was kept stays. Then with all rights."""
    image, job, report, _ = reported('bad-call')
    limit = {'preexec_fn': nobody} if os.getuid() == 0 else {}
    with Place(image, job, before) as place:
        if before:
            os.chmod(place.at(), file)
        os.chmod(place.path, folder)
        if place.call(['check', 'job.json'], **limit)[0] != 0:
            print('the program cannot be run without rights here: left out')
            return
        yield from differs('call', place.call(**limit), DISK_FAILED)
        os.chmod(place.path, 0o755)
        if os.path.exists(place.at()):
            os.chmod(place.at(), 0o644)
        yield from differs('file', place.kept(), before or b'')
        yield from differs('call with all rights', place.call(), (0, report, ''))


def limited(pieces, report, before, most):
    """A file that takes so many bytes and no more, and then all."""
    image, job = stored('bad-call')
    old = pieces_of(before)[0]

    def limit():
        resource.setrlimit(resource.RLIMIT_FSIZE, (most, most))
    with Place(image, job, before) as place:
        done = place.call(preexec_fn=limit, restore_signals=False)
        yield from differs('call', done, (0, report, '') if most >= len(whole(pieces)) else DISK_FAILED)
        now = pieces_of(place.kept())[0]
        yield from differs('pieces from before', now[:len(old)], old)
        yield from differs('pieces', now, pieces[:len(now)])
        yield from differs('call without a limit', place.call(), (0, report, ''))
        yield from differs('file', place.kept(), whole(pieces))


def limited_children():
    """Cases that change a child before it begins, and so come one after another."""
    _, _, report, pieces = reported('bad-call')
    first, most = whole(pieces[:1]), len(whole(pieces))
    yield 'a folder in which nothing can be made', partial(without_rights, 0o555, None, None)
    yield 'a file that cannot be written', partial(without_rights, 0o777, 0o444, first)
    yield 'a file that cannot be read', partial(without_rights, 0o777, 0o222, first)
    yield 'a folder that cannot be opened', partial(without_rights, 0o333, 0o666, first)
    for before in (b'', first, first[:-1]):
        rooms = {len(first) + by for by in range(-8, 8)} | {most + by for by in range(-8, 2)} | {*range(0, most, 251)}
        for room in sorted(room for room in rooms | {len(before)} if room >= len(before)):
            yield f'{len(before)} bytes kept, room for {room}', partial(limited, pieces, report, before, room)


# ---- words that leave the file alone

def leaves(words, status, line, change, before):
    """Words that do not come to the disk: a file is neither made nor changed, also where it is locked."""
    with Place(*stored('bad-call'), before) as place:
        place.write('report.txt', content('bad-call', 'report.txt'))
        place.write('source.s', b'ecall\n')
        os.mkdir(place.at('folder'))
        change(place)
        with open(place.at() if before else os.devnull, 'rb') as held:
            if before:
                fcntl.flock(held, fcntl.LOCK_EX)
            told = place.call(words)
        yield from differs('status and line', (told[0], told[2]), (status, line and f'clearview: {line}\n'))
        yield from differs('whether something is written', told[1] != '', status == 0)
        yield from differs('file', place.kept(), before or b'')
        yield from differs('whether it is there', os.path.exists(place.at()), before is not None)


def as_it_is(_):
    """Changes nothing in a place."""


def with_job(**fields):
    return lambda place: place.ask({**stored('bad-call')[1], **fields})


def with_file(name, data):
    return lambda place: place.write(name, data)


# words, status and line, and what is changed before
LEFT_ALONE = [(words, 0, '', as_it_is) for words in (
    ['plain', 'image.bin', '1000', 'none'], ['check', 'job.json'], ['infer', 'job.json'], ['run', 'job.json'],
    ['asm', 'source.s'], ['list', 'image.bin'], ['drill', '2', '3'], ['audit', 'job.json', 'report.txt'],
    ['replay', 'job.json', 'report.txt', '2', '6'])] + [(words, 2, 'usage', as_it_is) for words in (
        ['kept'], ['kept', ''], ['kept', '-job.json'], ['kept', 'job.json', 'job.json'], ['Kept', 'job.json'])] + [
    (['kept', 'none'], 12, 'no such file', as_it_is), (['kept', 'folder'], 6, 'cannot read', as_it_is),
    (['kept', 'image.bin'], 3, 'job refused: not-json', as_it_is),
    (KEPT, 3, 'job refused: field workers', with_job(workers=0)), (KEPT, 3, 'job refused: field rounds', with_job(rounds=[])),
    (KEPT, 3, 'job refused: too-many-runs', with_job(rounds=[{'mode': 'live', 'inputs': [''] * 1025}])),
    (KEPT, 3, 'job too long', with_file('job.json', bytes(16_777_217))),
    (KEPT, 12, 'no such file', with_job(image='none')), (KEPT, 6, 'cannot read', with_job(image='folder')),
    (KEPT, 4, 'image refused: empty', with_file('image.bin', b'')),
    (KEPT, 4, 'image refused: not-words', with_file('image.bin', HELLO[:-1])),
    (KEPT, 4, 'image too long', with_file('image.bin', bytes(4_194_305))),
]


def left_alone():
    for case in LEFT_ALONE:
        for name, before in (('no file', None), ('a locked file', b'\1 no piece')):
            yield f'{" ".join(case[0])}, {case[2] or "done"}, {name}', partial(leaves, *case, before)


# ---- calls that are stopped

def rounds_job(count):
    """A job of 20 rounds: a run that learns, then each time one that calls a place so often, and one that fails until
    it is repaired."""
    live = {'mode': 'live', 'inputs': [call(FIRST, count), call(NOWHERE)]}
    return {'image': 'image.bin', 'workers': 1, 'checks': 2, 'budget': 10_000_000,
            'rounds': [{'mode': 'learn', 'inputs': [call(FIRST, 3)]}] + [live] * (ROUNDS - 1)}


def seconds_of(job):
    """How long a call takes that nothing stops, the shorter time of two."""
    taken = []
    for _ in range(2):
        with Place(flat(CALLER), job) as place:
            start = time.monotonic()
            status, _, error = place.call()
            taken.append(time.monotonic() - start)
            assert (status, error) == (0, ''), (status, error)
    return min(taken)


def long_job():
    """The job whose call takes about as long here as is wanted."""
    return rounds_job(max(1, min(MOST, int(FEW * WANTED / seconds_of(rounds_job(FEW))))))


def two_calls(job):
    """While a call goes on, a second one is refused; the first one then ends as if nothing had been."""
    with Place(flat(CALLER), job) as place:
        report = place.report()
        with place.start() as first:
            while first.poll() is None and not place.kept():
                time.sleep(0.001)
            first.send_signal(signal.SIGSTOP)
            second = place.call() if first.poll() is None else None
            first.send_signal(signal.SIGCONT)
            output, error = first.communicate()
        yield from differs('first call', (first.returncode, output, error), (0, report, ''))
        yield from differs('second call', second, DISK_FAILED)
        yield from differs('file', place.kept(), whole(rounds_of(report, job)))


class Kills:
    """Calls that are killed at random moments, again and again until one ends by itself."""

    def __init__(self, seed):
        self.rng = random.Random(seed)
        self.count = 0  # of the calls that were killed

    def cases(self, job, times):
        """By turns the job of long runs, and one whose time is that of the disk; some with two workers."""
        jobs = job, rounds_job(1)
        seconds = [seconds_of(each) for each in jobs]
        for number in range(times):
            yield f'killed, time {number}', partial(self.until_done, jobs[number % 2], seconds[number % 2])
        for number in range(max(1, times // 4)):
            two = {**jobs[number % 2], 'workers': 2}
            yield f'killed with two workers, time {number}', partial(self.until_done, two, seconds[number % 2])
        yield 'whether some call was killed', lambda: differs('killed', self.count > 0, True)

    def until_done(self, job, seconds):
        with Place(flat(CALLER), job) as place:
            report = place.report() if job['workers'] == 1 else None
            before, kills, status = [], 0, None
            while status != 0 and kills < 1000:
                most = seconds * (0.5 if kills == 0 else 1.25 + kills / 20)
                status, output, error = self.call(place, self.rng.uniform(0, most))
                now = pieces_of(place.kept())[0]
                faults = differs(f'pieces after {kills} kills', now[:len(before)], before)
                if report:
                    faults += differs('pieces', now, rounds_of(report, job)[:len(now)])
                if faults or status not in (0, -signal.SIGKILL):
                    yield from faults or [f'status {status}, {error!r}']
                    return
                before, kills = now, kills + (status != 0)
            self.count += kills
            yield from differs('report', output, report) if report else []
            yield from sound(place, job, (status, output, error), before)

    def call(self, place, most):
        """Status, output and error lines of a call that is killed where it takes longer."""
        with place.start() as child:
            try:
                output, error = child.communicate(timeout=most)
            except subprocess.TimeoutExpired:
                child.kill()
                output, error = child.communicate()
            return child.returncode, output, error


def without_a_file():
    for name in sorted(os.listdir(JOBS)):
        yield f'{name}, on no file', partial(anew, name)
    for name in ('bad-call', 'first-repair-fails', 'good-runs-learned', 'nothing-learned-there', 'once-and-twice'):
        for workers in (2, 2, 4, 16):
            yield f'{name}, {workers} workers', partial(by_several, name, workers)
    yield 'a job in another folder', beside_the_job
    yield 'the table of pieces', read_as_told


def main():
    words = argparse.ArgumentParser(description=__doc__.split('\n', 1)[0])
    words.add_argument('program')
    words.add_argument('--kills', type=int, default=3)
    words.add_argument('--every', action='store_true')
    words.add_argument('--seed', type=int, default=1)
    asked = words.parse_args()
    sys.argv[1] = built(asked.program)
    results = Results()
    results.side_by_side([*without_a_file(), *cuts(asked.every), *other_files(), *more_rounds(), *refusals(),
                          *other_disks(), *left_alone()])
    results.one_by_one(large_files() if asked.every else [])
    results.one_by_one(limited_children())
    job = long_job()
    results.one_by_one([('two calls at once', partial(two_calls, job))])
    results.one_by_one(Kills(asked.seed).cases(job, asked.kills))
    ends(results.count, results.failed)


if __name__ == '__main__':
    main()
