"""Reads the report of `clearview run` (docs/FORMATS.md, "Report")."""
import re
import shutil
import subprocess

FIRST_LINES = 'clearview report 1', 'clearview report 2'
ADDR2LINE = 'riscv64-unknown-elf-addr2line'


class Report:
    """The lines of a report by their kind: entries as dictionaries of their fields, all others as words."""

    def __init__(self, text):
        lines = text.splitlines()
        if not lines or lines[0] not in FIRST_LINES or lines[-1] != 'end':
            raise ValueError('no report of clearview')
        words = [line.split(' ') for line in lines]
        self.entries = [dict(zip(w[0::2], w[1::2])) for w in words if w[0] == 'entry']
        self.cases = [{'kind': w[2], 'pc': w[3], 'opened': int(w[5]), 'checked': int(w[7]), 'state': w[9]}
                      for w in words if w[0] == 'case']
        self.installs = [int(w[2]) for w in words if w[0] == 'install']
        self.withdrawals = [int(w[2]) for w in words if w[0] == 'withdraw']
        self.repairs = [w for w in words if w[0] == 'repair']


def output_of(entry):
    return b'' if entry['output'] == '-' else bytes.fromhex(entry['output'])


def failed(entry):
    return entry['end'].startswith('failure:')


def exited(entry):
    return entry['end'].startswith('exit:')


def places(image, addresses):
    """For each address of an image with symbols that addr2line knows: pairs of `file:line` and function, the
    innermost first, where functions were put into one another. Empty where there is no addr2line."""
    addresses = list(addresses)
    if not addresses or not shutil.which(ADDR2LINE):
        return {}
    told = subprocess.run([ADDR2LINE, '-a', '-i', '-f', '-s', '-e', image] + addresses,
                          capture_output=True, text=True, check=True)
    found = {}
    for block in re.split(r'^0x', told.stdout, flags=re.MULTILINE)[1:]:
        address, *lines = block.splitlines()
        pairs = [(line.split(' ')[0], function) for function, line in zip(lines[0::2], lines[1::2])]
        if not pairs[0][0].startswith('??') and not pairs[0][0].endswith(':?'):
            found[address.upper()] = pairs
    return found
