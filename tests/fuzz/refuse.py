#!/usr/bin/env python3
"""refuse.py PROGRAM [--kind KIND..] [--job NAME..] [--workers N] [--words WORD..] [--first N] [--last N] [--step N]:
refuses the built program one call, at each place of a whole `run` (or of the command of --words): the k-th piece
of memory, opening, read or write, for k from 1 until there are no more; a read or a write that moves one byte, or
is interrupted; and writes of 10 bytes each, of which the k-th fails. Of each run it asks what docs/FORMATS.md promises:
the cause with its status and line, nothing on standard output but with a fault of the sink, and then a beginning of
the text; or the whole text. The kinds of the disk are tried on `kept`, from no file and from one with a round and a
torn piece: the k-th call on the kept file or its folder fails, also after half of its bytes, moves one byte, or is
interrupted; or the process ends before it, also so that any of the writes since the last sync are lost. After each
refusal of `kept` the pieces are there that were there before, and a call that nothing refuses writes the report.
The calls are failed by refuse.c, which is loaded into the program (Linux, and a C compiler): PROGRAM is
crates/clearview/out/clearview, and not the script ./clearview. A case that fails is printed; the last line is
`N passed, M failed`, the status is 1 where a case failed."""
import argparse
import json
import os
import pathlib
import re
import signal
import subprocess
import sys
import tempfile

HERE = pathlib.Path(__file__).resolve().parent
JOBS = HERE.parent / "jobs"
sys.path.insert(0, str(HERE.parent))
from pieces import NAME, frame, lines_of, pieces_of, rounds_of  # noqa: E402
NO_MEMORY = (5, "clearview: out of memory\n")
UNREAD = (6, "clearview: cannot read\n")
UNWRITTEN = (7, "clearview: cannot write\n")
DISK_FAILED = (10, "clearview: disk failed\n")
KILLED = (-signal.SIGKILL, "")
# what may be answered where the call of a kind was refused; None: only the report
KINDS = {"alloc": NO_MEMORY, "open": UNREAD, "read": UNREAD, "write": UNWRITTEN, "pieces": UNWRITTEN,
         "short-read": None, "short-write": None, "interrupted-read": None, "interrupted-write": None,
         "disk": DISK_FAILED, "torn-disk": DISK_FAILED, "short-disk": None, "interrupted-disk": None,
         "killed-disk": KILLED, "lost-disk": KILLED}
RUN, KEPT = ["run", "job.json"], ["kept", "job.json"]
# the indirect call, and two slots of which the first repair fails
STANDARD = [("bad-call", 1), ("first-repair-fails", 3)]
PIECE = 10  # the bytes that a write moves, of the kind `pieces`
SURVIVORS = 0, 1, 2, 4, 8, 7, 11, 13, 14  # as bits, which of the last writes are not lost, of the kind `lost-disk`
SECONDS = 60


def library(place):
    made = os.path.join(place, "refuse.so")
    subprocess.run(["cc", "-O2", "-shared", "-fPIC", "-o", made, str(HERE / "refuse.c")], check=True)
    return made


class Job:
    """A job of tests/jobs in a folder of its own, with so many workers, and a command there."""

    def __init__(self, name, workers, place):
        self.name, self.workers, self.words, self.place = name, workers, RUN, os.path.join(place, name)
        os.mkdir(self.place)
        self.kept = pathlib.Path(self.place, NAME)
        self.job = json.loads((JOBS / name / "job.json").read_text())
        self.job["workers"] = workers
        self.runs = sum(len(round_["inputs"]) for round_ in self.job["rounds"])
        pathlib.Path(self.place, "job.json").write_text(json.dumps(self.job))
        pathlib.Path(self.place, self.job["image"]).write_bytes((JOBS / name / self.job["image"]).read_bytes())

    def run(self, program, **variables):
        """Status, output and error lines, and whether the call came that was to be refused."""
        told, tell = os.pipe()
        env = dict(os.environ, REFUSE_TOLD=str(tell), **variables)
        try:
            done = subprocess.run([program, *self.words], cwd=self.place, env=env, pass_fds=[tell],
                                  capture_output=True, text=True, timeout=SECONDS)
        except subprocess.TimeoutExpired:
            done = subprocess.CompletedProcess([], None, "", f"not done in {SECONDS} s")
        os.close(tell)
        came = os.read(told, 1) == b"x"
        os.close(told)
        return done.returncode, done.stdout, done.stderr, came

    def keeps(self):
        return self.words == KEPT

    def is_any(self):
        """Whether several workers run, so that the report may be another one each time."""
        return self.workers > 1 and self.words in (RUN, KEPT)

    def is_report(self, text, report):
        """Whether a text is the whole one. Where several workers run, it is a whole report of the job."""
        if not self.is_any() or text == report:
            return text == report
        lines = text.splitlines()
        return (lines[:2] == report.splitlines()[:2] and lines[-1] == "end" and text.endswith("\n")
                and sorted(int(run) for run in re.findall(r"(?m)^entry \d+ run (\d+) ", text)) == list(range(self.runs)))

    def is_beginning(self, text, report):
        """Whether a text is a beginning of the whole one. Where several workers run, of its first lines, which say the job."""
        if self.is_any():
            report = "".join(report.splitlines(keepends=True)[:2])
            text = text[:len(report)]
        return report.startswith(text)

    def starts(self, report):
        """The files from which `kept` is tried, None where there is none; other commands know none."""
        if not self.keeps():
            return [None]
        first, second = rounds_of(report, self.job)[:2]
        return [None, frame(first) + frame(second)[:-9]]

    def start(self, content):
        self.kept.unlink(missing_ok=True)
        if content is not None:
            self.kept.write_bytes(content)

    def pieces(self):
        return pieces_of(self.kept.read_bytes() if self.kept.exists() else b"")[0]


def is_allowed(job, kind, answer):
    """Whether an answer may come where a call of the kind was refused."""
    return answer == KINDS[kind] or job.keeps() and kind == "open" and answer == DISK_FAILED


def fault_of(job, kind, call, answer, report):
    """What is wrong with an answer, or None."""
    status, output, line, came = answer
    if status == 0:
        if line or not job.is_report(output, report):
            return "another report"
        return "an error that nobody met" if came and kind != "alloc" and KINDS[kind] is not None else None
    if not came or KINDS[kind] is None or not is_allowed(job, kind, (status, line)):
        return "another cause"
    if kind == "pieces" and len(output) != PIECE * (call - 1):
        return "another length"
    if kind in ("write", "pieces"):
        return None if job.is_beginning(output, report) else "another beginning"
    return "an output with a refusal" if output else None


def fault_behind(program, job, report, before):
    """What is wrong with the kept file behind an answer, or with a call that nothing refuses, or None."""
    old, now = pieces_of(before or b"")[0], job.pieces()
    if now[:len(old)] != old:
        return "a piece is lost"
    status, output, line, _ = job.run(program)
    if (status, line) != (0, "") or not job.is_report(output, report):
        return f"the next call: status {status}, {line[:200]!r}"
    if job.pieces()[:len(now)] != now or b"".join(job.pieces()) != b"".join(lines_of(output)):
        return "other pieces"
    return None


def variables_of(kind, shim, call):
    """What the library is told, for each way in which a call is refused."""
    told = {"LD_PRELOAD": shim, "REFUSE_KIND": "write" if kind == "pieces" else kind, "REFUSE_CALL": str(call)}
    if kind == "lost-disk":
        return [{**told, "REFUSE_SURVIVES": str(survivors)} for survivors in SURVIVORS]
    return [{**told, "REFUSE_PIECE": str(PIECE)}] if kind == "pieces" else [told]


def tried(program, shim, job, kind, given, before, report):
    """How many calls were refused, and the faults that were seen."""
    call, faults, ends, came = given.first, [], {}, True
    while came and (given.last is None or call <= given.last):
        for variables in variables_of(kind, shim, call):
            job.start(before)
            answer = job.run(program, **variables)
            fault = fault_of(job, kind, call, answer, report)
            if not fault and job.keeps():
                fault = fault_behind(program, job, report, before)
            if fault:
                faults.append(f"{job.name}, {kind} {call}: {fault}: status {answer[0]}, {answer[2][:200]!r}, {answer[1][:200]!r}")
            came = answer[3]
            if came:
                ends[answer[0]] = ends.get(answer[0], 0) + 1
        call += given.step
    if kind.endswith("disk") and job.keeps() and not ends and given.first == 1:
        faults.append(f"{job.name}, {kind}: no call on the disk came")
    told = ", ".join(f"{count} of status {status}" for status, count in sorted(ends.items())) or "no such call"
    kept = f", {len(before)} bytes kept" if before else ""
    print(f"{job.name}, workers {job.workers}, {kind}{kept}: {told}", flush=True)
    return sum(ends.values()), faults


def report_of(program, job):
    """What the command of a job writes where nothing is refused."""
    job.start(None)
    status, report, line, _ = job.run(program)
    assert (status, line) == (0, ""), (status, line)
    return report


def main():
    parser = argparse.ArgumentParser(description="Refuses the built program one call, at each place.")
    parser.add_argument("program")
    parser.add_argument("--kind", nargs="*", choices=KINDS, default=list(KINDS))
    parser.add_argument("--job", nargs="*", default=[name for name, _ in STANDARD])
    parser.add_argument("--workers", type=int, help="of each job, in place of its own number here")
    parser.add_argument("--words", nargs="*", help="in place of `run job.json`, and of `kept job.json` for the disk")
    parser.add_argument("--first", type=int, default=1)
    parser.add_argument("--last", type=int)
    parser.add_argument("--step", type=int, default=1)
    given = parser.parse_args()
    program = os.path.abspath(given.program)
    count, faults = 0, []
    with tempfile.TemporaryDirectory() as place:
        shim = library(place)
        for name in given.job:
            job = Job(name, given.workers or dict(STANDARD).get(name, 1), place)
            for kind in given.kind:
                job.words = given.words or (KEPT if kind.endswith("disk") else RUN)
                report = report_of(program, job)
                for before in job.starts(report):
                    more, seen = tried(program, shim, job, kind, given, before, report)
                    count, faults = count + more, faults + seen
                    for fault in seen:
                        print(fault)
    print(f"{count - len(faults)} passed, {len(faults)} failed")
    sys.exit(1 if faults else 0)


if __name__ == "__main__":
    main()
