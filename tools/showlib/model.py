"""A report as data. The fields are those of docs/FORMATS.md, "Report"; addresses and values are whole numbers."""
import re
from dataclasses import dataclass, field
from typing import Dict, List, NamedTuple, Optional, Tuple

# bytes of output that are kept of one run
OUTPUT_LIMIT = 16384


class Job(NamedTuple):
    """The line of the job: its limits and how many runs it has."""
    workers: int
    checks: int
    budget: int
    rounds: int
    runs: int


class End(NamedTuple):
    """How a run ended: `exit` with a code, `failure` with a kind, a pc and a detail, or `budget`."""
    sort: str
    code: int = 0
    kind: str = ''
    pc: int = 0
    detail: int = 0


class Tally(NamedTuple):
    """What the checks of one candidate said in one run."""
    case: int
    index: int
    checks: int
    violations: int
    failed_last: bool


class Fired(NamedTuple):
    """How often a repair fired in one run."""
    case: int
    index: int
    count: int


@dataclass
class Entry:
    """One run of the history. `tally_text` is read only where somebody asks."""
    number: int
    run: int
    worker: int
    mode: str
    adopted: List[Tuple[int, int]]
    end: End
    turns: int
    sites: List[int]
    output: bytes
    tally_text: str
    fired: List[Fired]

    def tally(self, case) -> List[Tally]:
        """The rows of the checks of one case in this run, by index."""
        return [Tally(case, int(index), int(checks), int(violations), last == 'failed')
                for index, checks, violations, last in
                re.findall(rf'(?:^|,){case}\.(\d+):(\d+):(\d+):(held|failed)', self.tally_text)]

    def tally_counts(self) -> Tuple[int, int]:
        """How many candidates were checked in this run, and how many of them were violated."""
        if self.tally_text == '-':
            return 0, 0
        rows = self.tally_text.count(',') + 1
        return rows, rows - self.tally_text.count(':0:held')

    @property
    def last_version(self) -> Optional[int]:
        """The version that the run adopted last; none for a learn run."""
        return self.adopted[-1][0] if self.adopted else None


class Version(NamedTuple):
    """A version: the entry that made it (none for version 0) and its number of patches."""
    number: int
    entry: Optional[int]
    patches: int


class Invariant(NamedTuple):
    """An invariant: `one-of`, `lower`, `less-than` or `sp-offset` at a point.

    `registers` are the one or two that it names, `values` the values, the bound, or the offset."""
    sort: str
    point: int
    registers: Tuple[int, ...]
    values: Tuple[int, ...]


class Candidate(NamedTuple):
    """A candidate of a case: an invariant, and how it goes with the failure (`pending` before that is known)."""
    case: int
    index: int
    invariant: Invariant
    grade: str


class Action(NamedTuple):
    """What a repair does: `set`, `copy`, `set-sp`, `skip` or `return`, with its registers and its value."""
    sort: str
    registers: Tuple[int, ...]
    value: int = 0


class Repair(NamedTuple):
    """A repair of a case, made of one of its candidates, with its wins, fails and score."""
    case: int
    index: int
    candidate: int
    action: Action
    wins: int
    fails: int
    score: int


@dataclass
class Case:
    """A failure of live runs, with its candidates and repairs. `installed` is the repair in charge, if any."""
    number: int
    kind: str
    pc: int
    opened: int
    checked: int
    state: str
    installed: Optional[int]
    candidates: List[Candidate] = field(default_factory=list)
    repairs: List[Repair] = field(default_factory=list)


class Change(NamedTuple):
    """At `entry` a repair was installed (`install`) or withdrawn (`withdraw`)."""
    what: str
    entry: int
    case: int
    repair: int


@dataclass
class Report:
    """A whole report. `form` is the number in its first line."""
    form: int
    job: Job
    entries: List[Entry] = field(default_factory=list)
    versions: List[Version] = field(default_factory=list)
    cases: List[Case] = field(default_factory=list)
    changes: List[Change] = field(default_factory=list)
    learned: int = 0
    # place of each failure's case, by kind and pc
    case_of: Dict[Tuple[str, int], int] = field(default_factory=dict)
