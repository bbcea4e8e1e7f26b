"""The report on a terminal: the summary, then a story for each case, then what stands beside it."""
import textwrap

from .beside import outputs_words
from .facts import WHY_DROPPED, telling_candidates, why_dropped
from .headline import end_words, entries_words, story, summary
from .sentences import action_words, candidate_sentence, cure_sentence, failure_sentence
from .words import count, kind_name, one_line, seen_by

WIDTH = 100


def wrapped(text, indent='  ', more='  '):
    """The text in lines of at most WIDTH characters."""
    return textwrap.fill(text, WIDTH, initial_indent=indent, subsequent_indent=indent + more,
                         break_long_words=False, break_on_hyphens=False)


def named(name, text):
    """A line of a name and a text beside it."""
    return textwrap.fill(text, WIDTH, initial_indent=f'  {name:<15}', subsequent_indent=' ' * 17,
                         break_long_words=False, break_on_hyphens=False)


def state_words(case):
    """What became of a case."""
    if case.state == 'installed':
        return f'repaired by repair {case.installed}'
    if case.state == 'dropped':
        return f'dropped: {WHY_DROPPED[why_dropped(case)]}'
    return 'still being checked'


def span_words(spans):
    """When a repair was in charge: `in charge from entry 4 to 5`."""
    return ', '.join(f'in charge since entry {span.start}' if span.stop is None
                     else f'in charge from entry {span.start} to {span.stop}' for span in spans)


def repair_lines(case, facts, places):
    """A line for each repair that counts: installed, or with a win or a fail; and how many others there are."""
    lines = []
    quiet = 0
    charged = facts.spans_of()
    for repair in case.repairs:
        spans = charged.get(repair.index, [])
        if not (spans or repair.wins or repair.fails or len(case.repairs) <= 4):
            quiet += 1
            continue
        score = f'{count(repair.wins, "win")}, {count(repair.fails, "fail")}, score {repair.score}'
        lines.append(named('  repair ' + str(repair.index), f'{action_words(repair.action, places)} - {score}'
                                                            f'{"; " if spans else ""}{span_words(spans)}'))
    if quiet:
        lines.append(named('', f'{count(quiet, "more repair")}, never in charge'))
    return lines


def candidate_lines(case, facts, places, most=4):
    """What goes with the failure: the candidate of the repair in charge first, then some others."""
    cure = case.repairs[case.installed] if case.installed is not None else None
    telling = telling_candidates(case)
    lines = []
    for candidate in telling[:most]:
        text = candidate_sentence(candidate, facts.violations.get(candidate.index), places)
        if cure and candidate.index == cure.candidate:
            text += f'; {cure_sentence(candidate, cure.action, places)}'
        lines.append(named(candidate.grade, text + '.'))
    rest = len(telling) - len(lines)
    if rest:
        lines.append(named('', f'{count(rest, "more candidate")} went with the failure at times'))
    quiet = len(case.candidates) - len(telling)
    if quiet and case.state == 'checking':
        lines.append(named('candidates', f'{quiet}, none decided yet'))
    elif quiet:
        lines.append(named('', f'{count(quiet, "candidate")} never failed a check in these failures'))
    return lines


def case_lines(report, case, facts, places):
    """The story of a case."""
    opening = report.entries[case.opened]
    lines = ['', f'Case {case.number}: {kind_name(case.kind)} at {places.place(case.pc)}, {state_words(case)}']
    lines.append(named('seen', f'by the {"monitor" if seen_by(case.kind) == "monitor" else "machine"} in entry '
                               f'{case.opened}: {failure_sentence(opening.end, places)}'))
    instruction = places.instruction(case.pc)
    lines.append(named('at', places.full(case.pc) + (f': {instruction}' if instruction else '')))
    for site in opening.sites[1:]:
        lines.append(named('', f'called from {places.full(site)}'))
    lines.append(named('failed', f'{count(len(facts.failures), "time")}{entries_words(facts.failures)}, '
                                 f'{case.checked} of {report.job.checks} checked{entries_words(facts.checked)}'))
    lines += candidate_lines(case, facts, places)
    return lines + repair_lines(case, facts, places)


def dropped_lines(report, places):
    """Cases that were dropped without a candidate, a line for each."""
    return [named(f'case {case.number}', f'{kind_name(case.kind)} at {places.place(case.pc)}, entry {case.opened}')
            for case in report.cases if not case.candidates]


def beside_lines(report, beside, places):
    """Each repaired run beside its plain run; runs that went alike share a line."""
    lines = ['', 'Plain beside patched (runs in which a repair fired, run again without patches)']
    alike = {}
    for each in beside:
        entry = report.entries[each.entry]
        if each.trouble:
            what = f'not compared: {each.trouble}'
        else:
            what = f'plain {end_words(each.end, places)}; patched {end_words(entry.end, places)}'
            what += f'; {outputs_words(each, entry.output)}'
            if each.parted is not None:
                rest = ((name, output[each.parted:]) for name, output in (('plain', each.output),
                                                                          ('patched', entry.output)))
                told = [(name, one_line(data, 24)) for name, data in rest if data]
                what += ': ' + ', '.join(f'"{said}"' if len(told) == 1 else f'{name} "{said}"' for name, said in told)
        alike.setdefault((not each.warning, what), []).append(each.entry)
    for (fine, what), numbers in sorted(alike.items(), key=lambda item: (item[0][0], item[1])):
        warning = '' if fine else '; WARNING: the plain run exits: the repair changed a run that was good'
        lines.append(wrapped(f'{entries_words(numbers)[2:-1]}: {what}{warning}'))
    return lines


def unlike_lines(unlike):
    """What repaired runs wrote that no learn run did."""
    lines = ['', 'Unlike the learn runs that exited (shown, not judged)']
    codes = [each.entry for each in unlike if each.new_code]
    if codes:
        lines.append(wrapped(f'{entries_words(codes)[2:-1]}: an exit code that none of them has'))
    for each in unlike:
        if each.lines:
            lines.append(wrapped(f'entry {each.entry}: {count(len(each.lines), "line")} of a form that none of them '
                                 f'wrote, the first "{one_line(each.lines[0], 40)}"'))
    return lines


def tell(name, report, facts, places, beside=None, unlike=()):
    """The whole text for a terminal."""
    lines = [name, wrapped(story(report, facts), '', ''), '', 'Summary']
    lines += [named(key, text) for key, text in summary(report, facts, beside)]
    for case, found in zip(report.cases, facts.cases):
        if case.candidates:
            lines += case_lines(report, case, found, places)
    dropped = dropped_lines(report, places)
    if dropped:
        lines += ['', f'Dropped at once: {WHY_DROPPED["no candidates"]}'] + dropped
    if beside:
        lines += beside_lines(report, beside, places)
    if any(each.any for each in unlike):
        lines += unlike_lines([each for each in unlike if each.any])
    return '\n'.join(lines) + '\n'
