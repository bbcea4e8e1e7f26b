"""The file in which rounds are kept, as bytes: its pieces, frames of pieces, and the pieces that a report's
rounds come to (docs/FORMATS.md, "The kept file")."""

NAME = 'clearview.keep'
LONGEST = 1 << 28  # of a piece, in bytes


def frame(piece, gate=1):
    """A piece as it lies in the file: a gate that is not 0, the length, the bytes."""
    return bytes([gate]) + len(piece).to_bytes(4, 'little') + piece


def whole(pieces):
    """The file that holds pieces and nothing else: behind the last one the gate is closed."""
    return b''.join(map(frame, pieces)) + b'\0'


def pieces_of(content):
    """The pieces of a file, and its end place."""
    pieces, place = [], 0
    while content[place:place + 1] not in (b'', b'\0'):
        length = int.from_bytes(content[place + 1:place + 5], 'little')
        behind = place + 5 + length
        if len(content) < place + 5 or length > LONGEST or len(content) < behind:
            break
        pieces.append(content[place + 5:behind])
        place = behind
    return pieces, place


def lines_of(report):
    """The entry lines of a report, as bytes with their line feeds."""
    return [line.encode() + b'\n' for line in report.split('\n') if line.startswith('entry ')]


def rounds_of(report, job):
    """The pieces of a report's rounds: the entries of a round stand behind those of the rounds before it."""
    lines, pieces = lines_of(report), []
    for each in job['rounds']:
        count = len(each['inputs'])
        pieces.append(b''.join(lines[:count]))
        lines = lines[count:]
    return pieces
