"""The list of runs of a page, with filters, and how outputs are shown."""
from html import escape

from .headline import end_words
from .model import OUTPUT_LIMIT
from .sentences import action_words, failure_sentence
from .words import count, mostly_text, one_line, pieces

# bytes of one output that a page shows, in a report of few runs and of many
SHOWN = 4096
SHOWN_OF_MANY = 1024
MANY = 200


def bytes_html(data, limit):
    """Bytes as text, or as digits where they are none; the place where the page stops is marked."""
    if not mostly_text(data):
        told = f'<i class="esc">{data[:limit].hex(" ", -4)}</i>'
    else:
        told = ''.join(f'<i class="esc">{escape(text)}</i>' if is_escape else escape(text)
                       for text, is_escape in pieces(data[:limit]))
    if len(data) > limit:
        told += f'<b class="cut">cut here: {limit:,} of {len(data):,} bytes are shown</b>'
    return told


def output_html(data, limit, name='output'):
    """An output with its mark where it reached the limit; a word where there is none."""
    if not data:
        return f'<p class="quiet">no {name}</p>'
    full = f'<p class="full"><b class="cut">cut by the limit</b> it has {OUTPUT_LIMIT:,} bytes; what came behind ' \
           f'these was not kept</p>' if len(data) >= OUTPUT_LIMIT and name == 'output' else ''
    return f'<pre class="bytes">{bytes_html(data, limit)}</pre>{full}'


def limit_of(report):
    """How many bytes of each output the page shows."""
    return SHOWN if len(report.entries) <= MANY else SHOWN_OF_MANY


def end_html(entry, places):
    """The end as a small sign and its words."""
    sign = {'exit': '&#9632;', 'failure': '&#10005;', 'budget': '&#9633;'}[entry.end.sort]
    classes = f'end {entry.end.sort}' + (' fired' if entry.fired else '')
    return f'<span class="{classes}"><i aria-hidden="true">{sign}</i>{escape(end_words(entry.end, places))}</span>'


def entry_link(entry):
    """A link to an entry's run, with the sign of its end."""
    sign = {'exit': '&#9632;', 'failure': '&#10005;', 'budget': '&#9633;'}[entry.end.sort]
    fired = ' fired' if entry.fired else ''
    return f'<a class="entry {entry.end.sort}{fired}" href="#entry-{entry.number}"><i aria-hidden="true">{sign}</i>' \
           f'{entry.number}</a>'


def versions_words(entry):
    """The versions that a run adopted, in words."""
    if not entry.adopted:
        return 'none: a learn run'
    return ', '.join(f'version {version} at {count(number, "block entry", "block entries")}'
                     for version, number in entry.adopted)


def facts_list(report, entry, places, job):
    """What there is to say of a run, as pairs of a name and HTML."""
    yield 'run', f'{entry.run}, by worker {entry.worker}, ' + (
        f'round {job.runs[entry.run][0]}, ' if job else '') + entry.mode
    yield 'turns', f'{entry.turns:,}'
    if entry.end.sort == 'failure':
        yield 'what happened', escape(failure_sentence(entry.end, places))
        case = report.case_of.get((entry.end.kind, entry.end.pc))
        if entry.mode == 'live' and case is not None:
            yield 'case', f'<a href="#case-{case}">case {case}</a>'
        elif entry.mode == 'live':
            yield 'case', 'none: 64 cases stand'
    if entry.sites:
        yield 'call chain', ' <span class="quiet">called from</span> '.join(
            f'<code>{escape(places.full(site))}</code>' for site in entry.sites)
    yield 'versions', versions_words(entry)
    for row in entry.fired:
        repair = report.cases[row.case].repairs[row.index]
        yield 'repair fired', f'<a href="#case-{row.case}">case {row.case}</a>, repair {row.index}, ' \
                              f'{count(row.count, "time")}: {escape(action_words(repair.action, places))}'
    checked, violated = entry.tally_counts()
    if checked:
        yield 'checks', f'{count(checked, "candidate")} checked, {violated:,} of them violated'


def run_html(report, entry, places, job, limit):
    """A run: a line, and the rest behind a click."""
    case = report.case_of.get((entry.end.kind, entry.end.pc)) if entry.mode == 'live' else None
    cases = sorted({row.case for row in entry.fired} | ({case} if case is not None else set()))
    version = entry.last_version
    told = ''.join(f'<dt>{name}</dt><dd>{text}</dd>' for name, text in facts_list(report, entry, places, job))
    if job:
        told += f'<dt>input</dt><dd>{output_html(job.input_of(entry.run), limit, "input")}</dd>'
    told += f'<dt>output</dt><dd>{output_html(entry.output, limit)}</dd>'
    mark = '<b class="cut">cut</b> ' if len(entry.output) >= OUTPUT_LIMIT else ''
    return (f'<details class="run" id="entry-{entry.number}" data-end="{entry.end.sort}" data-mode="{entry.mode}" '
            f'data-fired="{int(bool(entry.fired))}" data-cases="{" ".join(map(str, cases))}"><summary>'
            f'<span class="number">{entry.number}</span>{end_html(entry, places)}'
            f'<span class="mode">{entry.mode}</span><span class="by">worker {entry.worker}</span>'
            f'<span class="at">{"" if version is None else f"v{version}"}</span>'
            f'<span class="said">{mark}{escape(one_line(entry.output, 80))}</span></summary>'
            f'<dl>{told}</dl></details>')


def filters_html(report, facts):
    """Buttons that choose which runs are listed."""
    live = [entry for entry in report.entries if entry.mode == 'live']
    choices = [('all', 'all', len(report.entries)), ('failure', 'failed', facts.live.failures + facts.learn.failures),
               ('budget', 'budget used up', facts.live.budgets + facts.learn.budgets),
               ('fired', 'a repair fired', len(facts.fired)), ('learn', 'learn', facts.learn.all),
               ('live', 'live', len(live))]
    buttons = ''.join(f'<button type="button" data-filter="{name}" aria-pressed="{"true" if name == "all" else "false"}'
                      f'">{text} <b>{number:,}</b></button>' for name, text, number in choices if number)
    cases = ''.join(f'<option value="{case.number}">case {case.number}</option>' for case in report.cases)
    chosen = f'<label>of <select id="of-case"><option value="">any case</option>{cases}</select></label>' \
        if report.cases else ''
    return f'<div class="filters" role="group" aria-label="which runs are listed">{buttons}{chosen}</div>'


def runs_html(report, facts, places, job):
    """The section of the runs."""
    limit = limit_of(report)
    runs = ''.join(run_html(report, entry, places, job, limit) for entry in report.entries)
    return f'<section id="runs"><h2>Runs</h2>{filters_html(report, facts)}<div class="runs">{runs}</div></section>'
