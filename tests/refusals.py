#!/usr/bin/env python3
"""refusals.py PROGRAM: words and files that are refused, files at their limits of length and one
byte past them. Lines and statuses are those of docs/FORMATS.md. The last line is
`N passed, M failed`; the status is 1 where a case failed."""
from program import ends, run

JOB = b'{"image":"p.bin","workers":1,"checks":2,"budget":1,"rounds":[{"mode":"live","inputs":[%s]}]}'

# command, file (a number: so many bytes 00; None: there is none), line on standard error, status
CASES = [
    ('plain', None, 'clearview: no such file', 12),
    ('plain', 0, 'clearview: image refused: empty', 4),
    ('plain', 6, 'clearview: image refused: not-words', 4),
    ('plain', 262_148, 'clearview: image refused: text-long', 4),
    ('plain', 4_194_304, 'clearview: image refused: text-long', 4),
    ('plain', 4_194_305, 'clearview: image too long', 4),
    ('check', None, 'clearview: no such file', 12),
    ('check', 0, 'clearview: job refused: not-json', 3),
    ('check', b'{', 'clearview: job refused: not-json', 3),
    ('check', b'[]', 'clearview: job refused: not-object', 3),
    ('check', b'{"image":"p.bin","workers":0}', 'clearview: job refused: field workers', 3),
    ('check', JOB % b'"2"', 'clearview: job refused: field rounds', 3),
    ('check', JOB % b','.join([b'""'] * 1024), 'clearview: no such file', 12),  # the job's image
    ('check', JOB % b','.join([b'""'] * 1025), 'clearview: job refused: too-many-runs', 3),
    ('check', b'[' * 1_000_000, 'clearview: job refused: not-json', 3),
    ('check', b'{"x":' * 1_000_000, 'clearview: job refused: not-json', 3),
    ('check', b'[' * 200 + b']' * 200, 'clearview: job refused: not-json', 3),  # past the reader's limit
    ('check', b'[' * 100 + b']' * 100, 'clearview: job refused: not-object', 3),
    ('check', b'{"x":"\\ud800"}', 'clearview: job refused: not-json', 3),
    ('check', b'{"x":1e400}', 'clearview: job refused: not-json', 3),
    ('check', b'{"x":"\xff"}', 'clearview: job refused: not-json', 3),
    ('check', 16_777_216, 'clearview: job refused: not-json', 3),
    ('check', 16_777_217, 'clearview: job too long', 3),
    ('infer', 16_777_217, 'clearview: job too long', 3),
    ('asm', None, 'clearview: no such file', 12),
    ('asm', 4_194_304, 'clearview: source refused: line 1 unknown-name', 8),
    ('asm', 4_194_305, 'clearview: source too long', 8),
    ('list', None, 'clearview: no such file', 12),
    ('list', 0, 'clearview: image refused: empty', 4),
    ('list', 262_148, 'clearview: image refused: text-long', 4),
    ('list', 4_194_305, 'clearview: image too long', 4),
]


def main():
    failed = 0
    for command, content, line, status in CASES:
        files = {} if content is None else {
            'file': bytes(content) if isinstance(content, int) else content}
        done = run([command, 'file'] + (['1000', 'none'] if command == 'plain' else []), files)
        if (done.returncode, done.stdout, done.stderr) != (status, '', line + '\n'):
            failed += 1
            print(f'{command} {str(content)[:80]}: {done}')
    ends(len(CASES), failed)


if __name__ == '__main__':
    main()
