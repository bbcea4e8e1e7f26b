"""Words for what a report writes in short: kinds of failure, ends, registers, numbers, bytes of output."""

# the names of x0 to x31 in the calling convention (RISC-V ELF psABI, "Integer Register Convention")
ABI = ('zero', 'ra', 'sp', 'gp', 'tp', 't0', 't1', 't2', 's0', 's1', 'a0', 'a1', 'a2', 'a3', 'a4', 'a5',
       'a6', 'a7', 's2', 's3', 's4', 's5', 's6', 's7', 's8', 's9', 's10', 's11', 't3', 't4', 't5', 't6')

# name, who noticed it, what happened, with the detail in braces
KINDS = {
    'illegal-transfer': ('illegal transfer', 'monitor', 'control went to {}, which is no instruction of the program'),
    'heap-guard': ('heap overrun', 'monitor', 'bytes at {} were to be written outside every live heap block'),
    'shadow-stack': ('damaged return', 'monitor', 'a return went to {}, not to behind the call'),
    'crash-illegal': ('illegal instruction', 'crash', 'the word {} is no instruction'),
    'crash-break': ('break', 'crash', 'the program ran into an ebreak'),
    'crash-deep': ('calls too deep', 'crash', 'a call to {} came while 4,096 calls were open'),
    'crash-misaligned': ('misaligned access', 'crash', 'the address {} is no multiple of the access size'),
    'crash-unreadable': ('bad load', 'crash', 'a load at {} met memory that is not readable'),
    'crash-code': ('store into code', 'crash', 'a store at {} met the program\'s own code'),
    'crash-unwritable': ('bad store', 'crash', 'a store at {} met memory that is not writable'),
}


def register(number):
    """A register by both its names: `a5 (x15)`."""
    return f'{ABI[number]} (x{number})'


def signed(value):
    """A value of 32 bits as a two's complement number."""
    return value - (1 << 32) if value >> 31 else value


def count(number, one, many=None):
    """A count with its noun: `1 run`, `1,024 runs`."""
    return f'{number:,} {one if number == 1 else many or one + "s"}'


def listed(parts, joint='and'):
    """A list in words: `a, b and c`."""
    parts = list(parts)
    if len(parts) < 2:
        return ''.join(parts)
    return f'{", ".join(parts[:-1])} {joint} {parts[-1]}'


def ranges(numbers):
    """Ascending numbers in short: `2, 4-7, 9`."""
    parts = []
    for number in numbers:
        if parts and parts[-1][1] + 1 == number:
            parts[-1][1] = number
        else:
            parts.append([number, number])
    return ', '.join(str(first) if first == last else f'{first}, {last}' if first + 1 == last
                     else f'{first}-{last}' for first, last in parts)


def kind_name(kind):
    """`heap overrun` for `heap-guard`, and so on."""
    return KINDS[kind][0]


def seen_by(kind):
    """`monitor` or `crash`: who noticed a failure of this kind."""
    return KINDS[kind][1]


def end_short(end):
    """An end in two or three words, without its place."""
    if end.sort == 'exit':
        return f'exit {signed(end.code)}' if end.code < 1 << 32 else f'exit {end.code}'
    if end.sort == 'budget':
        return 'budget used up'
    return kind_name(end.kind)


def pieces(data):
    """The bytes as text, in pieces: each a text and whether it is an escape such as \\x00.

    Valid UTF-8 is shown as it is, with line feeds and tabs; all else, control characters too, as escapes."""
    found = []

    def add(text, escape):
        if found and found[-1][1] == escape:
            found[-1][0].append(text)
        else:
            found.append(([text], escape))

    for char in data.decode('utf-8', 'surrogateescape'):
        place = ord(char)
        if 0xDC80 <= place <= 0xDCFF:
            add(f'\\x{place - 0xDC00:02x}', True)
        elif char in '\n\t' or (char.isprintable() and char != '\\'):
            add(char, False)
        elif char == '\\':
            add('\\\\', True)
        else:
            for byte in char.encode('utf-8'):
                add(f'\\x{byte:02x}', True)
    return [(''.join(parts), escape) for parts, escape in found]


def one_line(data, limit=60):
    """The bytes as one line of text, cut after `limit` characters with a mark."""
    text = ''.join(part.replace('\n', '\\n').replace('\t', '\\t') for part, _ in pieces(data[:4 * limit]))
    if len(text) <= limit and len(data) <= 4 * limit:
        return text
    return text[:limit] + '…'


def mostly_text(data):
    """Whether at most a quarter of the first bytes have to be shown as escapes."""
    some = data[:512]
    escapes = sum(len(text) // 4 for text, escape in pieces(some) if escape)
    return 4 * escapes <= len(some)
