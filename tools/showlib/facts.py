"""What a report says when it is counted: the summary, and for each case its runs and its repairs' times.

Every entry is looked at a fixed number of times. Nothing is judged here that the report does not say."""
from dataclasses import dataclass, field
from typing import Dict, List, NamedTuple, Optional

from .model import OUTPUT_LIMIT

WHY_DROPPED = {
    'no candidates': 'nothing was learned where it failed',
    'none goes with it': 'no candidate goes with the failure highly or moderately',
    'no repair': 'its candidates give no repair',
}


def why_dropped(case):
    """Why a dropped case was dropped: a key of WHY_DROPPED."""
    if not case.candidates:
        return 'no candidates'
    if not any(candidate.grade in ('highly', 'moderately') for candidate in case.candidates):
        return 'none goes with it'
    return 'no repair'


GRADE_ORDER = {'highly': 0, 'moderately': 1, 'slightly': 2}


def telling_candidates(case):
    """The candidates that failed checks in the checked failures: that of the repair in charge first, then those that
    go with the failure best."""
    cure = case.repairs[case.installed].candidate if case.installed is not None else None
    found = [candidate for candidate in case.candidates if candidate.grade in GRADE_ORDER]
    return sorted(found, key=lambda candidate: (candidate.index != cure, GRADE_ORDER[candidate.grade],
                                                candidate.index))


class Ends(NamedTuple):
    """How many of some runs ended by exit, by failure and by budget."""
    exits: int
    failures: int
    budgets: int

    @property
    def all(self):
        return sum(self)


def ends_of(entries):
    """The counts of the entries' ends."""
    sorts = [entry.end.sort for entry in entries]
    return Ends(sorts.count('exit'), sorts.count('failure'), sorts.count('budget'))


class Span(NamedTuple):
    """A repair was in charge from behind the entry `start` up to the entry `stop`; to the end where that is None."""
    repair: int
    start: int
    stop: Optional[int]


@dataclass
class CaseFacts:
    """The runs of a case, as entries: those that failed with it, those that were checked, those where a repair
    fired; and when which repair was in charge."""
    failures: List[int] = field(default_factory=list)
    checked: List[int] = field(default_factory=list)
    fired: Dict[int, List[int]] = field(default_factory=dict)
    spans: List[Span] = field(default_factory=list)
    # (least, most) violations in a checked failure, by candidate that is not `not`
    violations: Dict[int, tuple] = field(default_factory=dict)

    def spans_of(self):
        """The spans of each repair that was ever in charge."""
        found = {}
        for span in self.spans:
            found.setdefault(span.repair, []).append(span)
        return found


@dataclass
class Facts:
    """The summary of a report. Lists are of entries, by number."""
    learn: Ends
    live: Ends
    first_repair: Optional[int]
    failures_before: List[int]
    failures_after: List[int]
    installed: int
    withdrawn: int
    states: Dict[str, int]
    dropped: Dict[str, int]
    fired: List[int]
    fired_ends: Ends
    learn_not_exit: List[int]
    output_full: List[int]
    no_case: List[int]
    missing: int
    newest: List[int]
    cases: List[CaseFacts]


def facts_of(report):
    """The summary and the cases' runs of a report."""
    entries, changes = report.entries, report.changes
    live = [entry for entry in entries if entry.mode == 'live']
    learn = [entry for entry in entries if entry.mode == 'learn']
    installs = [change for change in changes if change.what == 'install']
    first = installs[0].entry if installs else None
    failed = [entry for entry in live if entry.end.sort == 'failure']
    fired = [entry for entry in entries if entry.fired]
    dropped = dict.fromkeys(WHY_DROPPED, 0)
    states = {'installed': 0, 'checking': 0, 'dropped': 0}
    for case in report.cases:
        states[case.state] += 1
        if case.state == 'dropped':
            dropped[why_dropped(case)] += 1
    return Facts(
        learn=ends_of(learn), live=ends_of(live), first_repair=first,
        failures_before=[entry.number for entry in failed if first is None or entry.number <= first],
        failures_after=[entry.number for entry in failed if first is not None and entry.number > first],
        installed=len(installs), withdrawn=len(changes) - len(installs), states=states, dropped=dropped,
        fired=[entry.number for entry in fired], fired_ends=ends_of(fired),
        learn_not_exit=[entry.number for entry in learn if entry.end.sort != 'exit'],
        output_full=[entry.number for entry in entries if len(entry.output) >= OUTPUT_LIMIT],
        no_case=[entry.number for entry in failed if (entry.end.kind, entry.end.pc) not in report.case_of],
        missing=report.job.runs - len({entry.run for entry in entries}),
        newest=newest_versions(report), cases=case_facts(report))


def newest_versions(report):
    """For each entry the newest version behind it."""
    made = [0] * len(report.entries)
    for version in report.versions:
        if version.entry is not None:
            made[version.entry] = version.number
    for number in range(1, len(made)):
        made[number] = max(made[number], made[number - 1])
    return made


def case_facts(report):
    """The runs of each case. A failure is checked where its last version was made after the case was opened, as
    long as fewer failures than the report says were checked."""
    cases = [CaseFacts() for _ in report.cases]
    made_by = [-1 if version.entry is None else version.entry for version in report.versions]
    for entry in report.entries:
        for fired in entry.fired:
            cases[fired.case].fired.setdefault(fired.index, []).append(entry.number)
        if entry.mode == 'learn' or entry.end.sort != 'failure':
            continue
        place = report.case_of.get((entry.end.kind, entry.end.pc))
        if place is None:
            continue
        case = report.cases[place]
        cases[place].failures.append(entry.number)
        if entry.adopted and made_by[entry.last_version] >= case.opened and \
                len(cases[place].checked) < case.checked:
            cases[place].checked.append(entry.number)
    for change in report.changes:
        spans = cases[change.case].spans
        if spans and spans[-1].stop is None:
            spans[-1] = spans[-1]._replace(stop=change.entry)
        if change.what == 'install':
            spans.append(Span(change.repair, change.entry, None))
    count_violations(report, cases)
    return cases


def count_violations(report, cases):
    """Adds to each case how often its candidates that are not `not` were violated in its checked failures."""
    for case, found in zip(report.cases, cases):
        wanted = {candidate.index for candidate in case.candidates if candidate.grade not in ('not', 'pending')}
        if not wanted:
            continue
        for number in found.checked:
            rows = {row.index: row.violations for row in report.entries[number].tally(case.number)}
            for index in wanted:
                least, most = found.violations.get(index, (1 << 32, 0))
                violations = rows.get(index, 0)
                found.violations[index] = (min(least, violations), max(most, violations))
