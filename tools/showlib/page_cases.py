"""The stories of the cases on a page, and the plain runs beside the repaired ones."""
from html import escape

from .beside import outputs_words
from .facts import WHY_DROPPED, telling_candidates, why_dropped
from .headline import changed_words, end_words
from .page_runs import entry_link, limit_of, output_html
from .sentences import (action_words, always, before, candidate_sentence, capital, cure_sentence,
                        failure_sentence)
from .words import count, kind_name, one_line, seen_by

# how many are written out before the rest is put behind a click or left to the list of runs
LINKS = 40
CARDS_OPEN = 4
TELLING = 3
REPAIRS = 6
ROWS = 24

STATES = {'installed': 'repaired', 'checking': 'still being checked', 'dropped': 'dropped'}


def links_html(report, numbers):
    """Links to entries; how many more there are where they are many."""
    told = ' '.join(entry_link(report.entries[number]) for number in numbers[:LINKS])
    return told + (f' <span class="quiet">and {len(numbers) - LINKS:,} more</span>' if len(numbers) > LINKS else '')


def candidate_html(case, candidate, facts, places):
    """A candidate's sentence, with what is done now where the repair in charge comes of it."""
    text = escape(candidate_sentence(candidate, facts.violations.get(candidate.index), places))
    if case.installed is not None and case.repairs[case.installed].candidate == candidate.index:
        cure = cure_sentence(candidate, case.repairs[case.installed].action, places)
        text += f'; <strong>{escape(cure)}</strong>'
    return f'{text}.'


def invariant_line(candidate, places):
    """A candidate in short, for the list of all."""
    return f'{candidate.case}.{candidate.index} {before(candidate.invariant.point, places)}: ' \
           f'{always(candidate.invariant, places)} ({candidate.grade})'


def candidates_html(case, facts, places):
    """What goes with the failure, and the rest behind a click."""
    telling = telling_candidates(case)
    parts = []
    if telling:
        parts.append(f'<p class="lead">{candidate_html(case, telling[0], facts, places)}</p>')
    if len(telling) > 1:
        rows = ''.join(f'<li><b class="grade {candidate.grade}">{candidate.grade}</b> '
                       f'{candidate_html(case, candidate, facts, places)}</li>' for candidate in telling[1:])
        rows = f'<ul class="candidates">{rows}</ul>'
        if len(telling) - 1 > TELLING:
            rows = f'<details class="more"><summary>{len(telling) - 1} more candidates failed checks in these ' \
                   f'failures</summary>{rows}</details>'
        parts.append(rows)
    quiet = [candidate for candidate in case.candidates if candidate.grade in ('not', 'pending')]
    if quiet:
        what = f'{count(len(quiet), "candidate")}, not decided yet' if quiet[0].grade == 'pending' else \
            f'{count(len(quiet), "candidate")} never failed a check in these failures'
        lines = '\n'.join(invariant_line(candidate, places) for candidate in quiet)
        parts.append(f'<details class="more"><summary>{what}</summary><pre class="list">{escape(lines)}</pre>'
                     f'</details>')
    return ''.join(parts)


def charge_svg(report, spans, fired):
    """A strip over all entries: when the repair was in charge, and where it fired."""
    entries = max(len(report.entries), 1)
    parts = [f'<svg class="charge" viewBox="0 0 {entries} 10" preserveAspectRatio="none" aria-hidden="true">'
             f'<rect class="rest" width="{entries}" height="10"/>']
    for span in spans:
        stop = entries if span.stop is None else span.stop + 1
        parts.append(f'<rect class="span" x="{span.start + 1}" width="{stop - span.start - 1}" height="10"/>')
    ticks = {True: [], False: []}
    for number in fired:
        ticks[report.entries[number].end.sort == 'exit'].append(f'M{number}.2 1h.6V9h-.6z')
    for good, path in ticks.items():
        if path:
            parts.append(f'<path class="{"win" if good else "fail"}" d="{"".join(path)}"/>')
    return ''.join(parts) + '</svg>'


def span_words(spans):
    """When a repair was in charge."""
    return ', '.join(f'since entry {span.start}' if span.stop is None else f'entry {span.start} to {span.stop}'
                     for span in spans) or 'never'


def repair_row(report, case, repair, spans, facts, places):
    """A repair: what it does, its wins, fails and score, and when it was in charge."""
    strip = charge_svg(report, spans, facts.fired.get(repair.index, [])) if spans else ''
    here = ' class="here"' if repair.index == case.installed else ''
    return (f'<tr{here}><td class="n">{repair.index}</td><td class="does">'
            f'{escape(action_words(repair.action, places))}</td><td class="n">{repair.wins}</td>'
            f'<td class="n">{repair.fails}</td><td class="n">{repair.score}</td><td class="when">'
            f'{span_words(spans)}{strip}</td></tr>')


def repairs_html(report, case, facts, places):
    """The table of repairs; those that were never in charge are left out where they are many."""
    if not case.repairs:
        return ''
    charged = facts.spans_of()
    shown = [repair for repair in case.repairs
             if len(case.repairs) <= REPAIRS or repair.index in charged or repair.wins or repair.fails]
    rows = ''.join(repair_row(report, case, repair, charged.get(repair.index, []), facts, places) for repair in shown)
    rest = len(case.repairs) - len(shown)
    more = f'<p class="quiet">{count(rest, "more repair")}, never in charge</p>' if rest else ''
    return (f'<div class="wide"><table class="repairs"><thead><tr><th class="n">repair</th><th>what it does</th>'
            f'<th class="n">wins</th><th class="n">fails</th><th class="n">score</th><th>in charge</th></tr></thead>'
            f'<tbody>{rows}</tbody></table></div>{more}')


def chain_html(entry, places):
    """The failing place and the calls that led there."""
    steps = []
    for place, site in enumerate(entry.sites):
        instruction = places.instruction(site)
        shown = f'<code>{escape(places.full(site))}</code>' + (
            f' <code class="quiet">{escape(instruction)}</code>' if instruction else '')
        steps.append(f'<li>{"" if place == 0 else "called from "}{shown}</li>')
    return f'<ol class="chain">{"".join(steps)}</ol>'


def state_html(case):
    """What became of the case, as a sign and a word."""
    sign = {'installed': '&#9650;', 'checking': '&#8226;', 'dropped': '&#8211;'}[case.state]
    return f'<span class="state {case.state}"><i aria-hidden="true">{sign}</i>{STATES[case.state]}</span>'


def case_html(report, case, facts, places, is_open):
    """The card of a case."""
    entry = report.entries[case.opened]
    noticed = 'the monitor' if seen_by(case.kind) == 'monitor' else 'the machine'
    fired = sorted({number for numbers in facts.fired.values() for number in numbers})
    dropped = f'<p class="lead">Dropped: {WHY_DROPPED[why_dropped(case)]}.</p>' if case.state == 'dropped' else ''
    rows = [('failed', links_html(report, facts.failures)),
            ('checked', f'{links_html(report, facts.checked)} <span class="quiet">{case.checked} of '
                        f'{report.job.checks}</span>')]
    if fired:
        rows.append(('repair fired', links_html(report, fired)))
    runs = ''.join(f'<dt>{name}</dt><dd>{text}</dd>' for name, text in rows)
    cure = '' if is_open or case.installed is None else \
        f'<span class="quiet cure">{escape(action_words(case.repairs[case.installed].action, places))}</span>'
    return (f'<details class="case" id="case-{case.number}"{" open" if is_open else ""}><summary><h3>Case '
            f'{case.number}: {kind_name(case.kind)} at <code>{escape(places.place(case.pc))}</code></h3>'
            f'{cure}<span class="quiet">{count(len(facts.failures), "failure")}</span>{state_html(case)}</summary>'
            f'<div class="body"><p>{capital(noticed)} stopped <a href="#entry-{case.opened}">entry {case.opened}</a>: '
            f'{escape(failure_sentence(entry.end, places))}.</p>{chain_html(entry, places)}'
            f'{dropped}{candidates_html(case, facts, places)}{repairs_html(report, case, facts, places)}'
            f'<dl class="case-runs">{runs}</dl>'
            f'<p class="acts"><button type="button" data-mark="{case.number}">mark in the timeline</button> '
            f'<button type="button" data-list="{case.number}">list its runs</button></p></div></details>')


def cases_html(report, facts, places):
    """The section of the cases: cards that are open where they are few, rows that open where they are many."""
    if not report.cases:
        return ('<section id="cases"><h2>Cases</h2><p class="quiet">No live run failed, so there is no case.</p>'
                '</section>')
    few = len(report.cases) <= CARDS_OPEN
    cards = ''.join(case_html(report, case, found, places, few) for case, found in zip(report.cases, facts.cases))
    return f'<section id="cases"><h2>Cases</h2><div class="cases{"" if few else " many"}">{cards}</div></section>'


def cures_html(report, places):
    """What is done now, case by case, where these are few."""
    if not 0 < len(report.cases) <= CARDS_OPEN:
        return ''
    lines = []
    for case in report.cases:
        told = STATES[case.state]
        if case.installed is not None:
            told = f'<b>{escape(action_words(case.repairs[case.installed].action, places))}</b>'
        elif case.state == 'dropped':
            told = f'dropped, as {WHY_DROPPED[why_dropped(case)]}'
        lines.append(f'<li><a href="#case-{case.number}">Case {case.number}</a>, {kind_name(case.kind)} at '
                     f'<code>{escape(places.place(case.pc))}</code>: {told}</li>')
    return f'<ul class="cures">{"".join(lines)}</ul>'


def pair_html(report, each, places):
    """A repaired run beside its plain run."""
    entry = report.entries[each.entry]
    if each.trouble:
        return f'<li class="pair">{entry_link(entry)} <span class="quiet">not compared: {escape(each.trouble)}</span>' \
               f'</li>'
    body = ''
    if each.parted is not None:
        limit = limit_of(report)
        body = (f'<div class="two"><div><h4>plain</h4>{output_html(each.output, limit)}</div>'
                f'<div><h4>patched</h4>{output_html(entry.output, limit)}</div></div>')
    warning = '<b class="warning"><i aria-hidden="true">&#9888;</i> the plain run exits</b>' if each.warning else ''
    line = (f'{entry_link(entry)}<span class="ends">plain <b>{escape(end_words(each.end, places))}</b> '
            f'<span class="quiet">&rarr; patched</span> <b>{escape(end_words(entry.end, places))}</b></span>'
            f'<span class="quiet">{outputs_words(each, entry.output)}</span>{warning}')
    classes = 'pair warned' if each.warning else 'pair'
    if body:
        return f'<li class="{classes}"><details><summary>{line}</summary>{body}</details></li>'
    return f'<li class="{classes}"><div class="flat">{line}</div></li>'


def beside_html(report, beside, places):
    """The section that sets plain runs beside the repaired ones; warnings come first."""
    if not beside:
        return ''
    warned = [each for each in beside if each.warning]
    ordered = warned + [each for each in beside if not each.warning]
    if warned:
        verdict = f'<p class="lead alarm"><i aria-hidden="true">&#9888;</i> Warning: {changed_words(warned)}.</p>'
    elif any(each.trouble for each in beside):
        verdict = ''
    else:
        verdict = '<p class="lead">None of these runs is good without patches.</p>'
    rows = [pair_html(report, each, places) for each in ordered]
    told = f'<ul class="pairs">{"".join(rows[:ROWS])}</ul>'
    if len(rows) > ROWS:
        told += f'<details class="more"><summary>{len(rows) - ROWS:,} more</summary><ul class="pairs">' \
                f'{"".join(rows[ROWS:])}</ul></details>'
    return (f'<section id="beside"><h2>Plain beside patched</h2><p class="quiet">Each run in which a repair fired, run '
            f'again without patches.</p>{verdict}{told}</section>')


def unlike_html(report, unlike):
    """What repaired runs wrote that no good learn run did: shown, not judged."""
    found = [each for each in unlike if each.any]
    if not found:
        return ''
    rows = []
    codes = [each.entry for each in found if each.new_code]
    if codes:
        rows.append(f'<li>An exit code that no learn run has: {links_html(report, codes)}</li>')
    for each in [each for each in found if each.lines][:LINKS]:
        rows.append(f'<li>{entry_link(report.entries[each.entry])} {count(len(each.lines), "line")} of a form that no '
                    f'learn run wrote, the first <code>{escape(one_line(each.lines[0], 60))}</code></li>')
    return (f'<section id="unlike"><h2>Unlike the learn runs</h2><p class="quiet">Repaired runs that exited, beside '
            f'the learn runs that did. Shown, not judged.</p><ul>{"".join(rows)}</ul></section>')
