"""How the tests of the built program run it: each case in a folder of its own, with its files. And
whether the compiler is here that made the kept images."""
import os
import shutil
import subprocess
import sys
import tempfile

HELLO = bytes.fromhex('9308d0051305000073000000')  # a flat image that exits with 0
MAKERS = 'riscv64-unknown-elf-gcc', 'make'
KEPT_BY = '12.2.0'  # the compiler that made the kept images: another one makes other code


def run(words, files, output=subprocess.PIPE, text=True):
    """The words' run in a new folder that holds `files`, by name (None: a folder): status, output,
    error lines, as text or as bytes."""
    program = os.path.abspath(sys.argv[1])
    with tempfile.TemporaryDirectory() as place:
        for name, content in files.items():
            if content is None:
                os.mkdir(os.path.join(place, name))
                continue
            with open(os.path.join(place, name), 'wb') as file:
                file.write(content)
        return subprocess.run([program] + words, cwd=place, stdout=output, stderr=subprocess.PIPE,
                              text=text, timeout=60)


def built(path):
    """The program itself, where the script ./clearview is given: the script makes processes of its own at each
    call. It is called once, and builds the program anew where that is older than its sources."""
    path = os.path.abspath(path)
    itself = os.path.join(os.path.dirname(path), 'crates', 'clearview', 'out', 'clearview')
    with open(path, 'rb') as file:
        script = file.read(2) == b'#!'
    if not script or not os.path.exists(itself):
        return path
    subprocess.run([path], stdout=subprocess.PIPE, stderr=subprocess.PIPE, check=False)
    return itself


def can_build():
    """Whether programs of guest/ can be built here."""
    return all(shutil.which(tool) for tool in MAKERS)


def builds_the_kept():
    """Whether a build here gives the kept images."""
    if not can_build():
        return False
    told = subprocess.run([MAKERS[0], '-dumpfullversion'], capture_output=True, text=True)
    return told.stdout.strip() == KEPT_BY


def ends(count, failed):
    """Prints the last line, `N passed, M failed`, and stops with its status: 1 where a case failed."""
    print(f'{count - failed} passed, {failed} failed')
    sys.exit(1 if failed else 0)
