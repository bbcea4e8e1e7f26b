"""The story of a report in a few sentences, and the lines of its summary."""
from .facts import WHY_DROPPED
from .words import count, end_short, listed, ranges


def ends_words(ends):
    """`3 exited, 1 failed, 0 used up the budget`, without what there is none of."""
    parts = [f'{number:,} {what}' for number, what in (
        (ends.exits, 'exited'), (ends.failures, 'failed'), (ends.budgets, 'used up the budget')) if number]
    return listed(parts) or 'none'


def story(report, facts):
    """What happened, in two or three sentences."""
    told = []
    failures = facts.live.failures
    if not facts.live.all:
        told.append('No live run was made.')
    elif not failures:
        told.append(f'None of {count(facts.live.all, "live run")} failed.')
    elif facts.first_repair is None:
        told.append(f'{failures:,} of {count(facts.live.all, "live run")} failed, and no repair was installed.')
    else:
        told.append(f'{failures:,} of {count(facts.live.all, "live run")} failed: {len(facts.failures_before):,} '
                    f'up to the first repair, {len(facts.failures_after):,} after it.')
    if report.cases:
        told.append(f'{count(len(report.cases), "case")}: {states_words(facts)}.')
    if facts.fired:
        told.append(f'Repairs fired in {count(len(facts.fired), "run")}: {ends_words(facts.fired_ends)}.')
    return ' '.join(told)


def states_words(facts):
    """`1 repaired, 1 still being checked, 2 dropped`."""
    return listed(f'{facts.states[state]:,} {what}' for state, what in (
        ('installed', 'repaired'), ('checking', 'still being checked'), ('dropped', 'dropped'))
        if facts.states[state])


def entries_words(numbers, limit=12):
    """`(entries 2-4)`, in short where they are many; nothing where there are none."""
    if not numbers:
        return ''
    text = ranges(numbers)
    if text.count(',') >= limit:
        text = ', '.join(text.split(', ')[:limit]) + ', …'
    return f' ({"entry" if len(numbers) == 1 else "entries"} {text})'


def changed_words(warned):
    """The warning where repairs changed runs that were good."""
    return f'{count(len(warned), "run")} {"is" if len(warned) == 1 else "are"} good without patches, and ' \
           f'{"was" if len(warned) == 1 else "were"} changed by a repair'


def summary(report, facts, beside=None):
    """The summary as pairs of a name and a text; lines that say nothing are left out."""
    job = report.job
    lines = [
        ('runs', f'{len(report.entries):,} in {count(job.rounds, "round")} by {count(job.workers, "worker")}; '
                 f'{job.checks} checks a case, {count(job.budget, "turn")} a run'),
        ('learn runs', f'{facts.learn.all:,}: {ends_words(facts.learn)}'
                       f'{entries_words(facts.learn_not_exit)}'),
        ('live runs', f'{facts.live.all:,}: {ends_words(facts.live)}'),
    ]
    if facts.first_repair is None:
        lines.append(('live failures', f'{facts.live.failures:,}{entries_words(facts.failures_before)}; '
                                       f'no repair was installed'))
    else:
        lines.append(('live failures', f'{len(facts.failures_before):,} up to the first repair'
                                       f'{entries_words(facts.failures_before)}, {len(facts.failures_after):,} after '
                                       f'it{entries_words(facts.failures_after)}'))
    lines.append(('cases', f'{len(report.cases):,}' + (f': {states_words(facts)}' if report.cases else '')))
    for why, number in facts.dropped.items():
        if number:
            lines.append(('', f'{number:,} dropped: {WHY_DROPPED[why]}'))
    if facts.no_case:
        lines.append(('', f'{count(len(facts.no_case), "failure")} of no case{entries_words(facts.no_case)}'))
    lines += [
        ('repairs', f'{facts.installed:,} installed, {facts.withdrawn:,} withdrawn; '
                    f'{count(len(report.versions), "version")}'),
        ('repairs fired', f'in {count(len(facts.fired), "run")}' + (
            f': {ends_words(facts.fired_ends)}{entries_words(facts.fired)}' if facts.fired else '')),
        ('learned', count(report.learned, 'invariant')),
    ]
    if facts.output_full:
        lines.append(('full outputs', f'{count(len(facts.output_full), "run")} reached 16,384 bytes'
                                      f'{entries_words(facts.output_full)}'))
    warned = [each.entry for each in beside or [] if each.warning]
    if warned:
        lines.append(('WARNING', f'{changed_words(warned)}{entries_words(warned)}'))
    if facts.missing:
        lines.append(('missing', f'{count(facts.missing, "run")} of the job {"has" if facts.missing == 1 else "have"}'
                                 f' no entry'))
    return lines




def end_words(end, places):
    """An end with its place: `exit 7`, `bad load at dispatch.c:68`."""
    return end_short(end) if end.sort != 'failure' else f'{end_short(end)} at {places.place(end.pc)}'
