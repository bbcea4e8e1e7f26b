"""The timeline of a page: a lane for each worker, an entry a bar, the newest version as steps behind them.

An entry stands at its place in the history. Its end is told by shape and by colour: a short solid bar exited, a tall
bar with a cross failed, a tall hollow bar used up its budget, a diamond above a bar is a repair that fired."""
from html import escape

from .headline import end_words
from .words import count

HEAD = 22
TRACK = 20
FOOT = 24
MOST_SLOT = 88
LEAST_SLOT = 9
ROOM = 960


class Scale:
    """Where things stand, in pixels: a slot for each entry, rows for the tracks and lanes."""

    def __init__(self, report):
        self.entries = len(report.entries)
        self.slot = max(LEAST_SLOT, min(MOST_SLOT, ROOM // max(self.entries, 1)))
        self.bar = min(self.slot - 2, 18)
        self.lanes = report.job.workers
        self.lane = {1: 60, 2: 44, 3: 38, 4: 36}.get(self.lanes, 26)
        self.tall = min(self.lane - 12, 30)
        self.tracks = ['opened'] if report.cases else []
        if report.changes:
            self.tracks.append('installed')
        if any(change.what == 'withdraw' for change in report.changes):
            self.tracks.append('withdrawn')
        if len(report.versions) > 1:
            self.tracks.append('version')
        self.top = HEAD + TRACK * len(self.tracks) + 4
        self.bottom = self.top + self.lane * self.lanes
        self.width = self.slot * max(self.entries, 1)
        self.height = self.bottom + FOOT

    def middle(self, entry):
        return self.slot * entry + self.slot / 2

    def track(self, name):
        return HEAD + TRACK * self.tracks.index(name)


def number(value):
    """A coordinate without needless digits."""
    return f'{value:.1f}'.rstrip('0').rstrip('.')


def rounds_of(report):
    """The stretches of entries of one mode: (first, behind the last, mode)."""
    found = []
    for entry in report.entries:
        if found and found[-1][2] == entry.mode:
            found[-1][1] = entry.number + 1
        else:
            found.append([entry.number, entry.number + 1, entry.mode])
    return found


def band_parts(report, scale):
    """A band behind the entries of each mode, with its name above."""
    for first, behind, mode in rounds_of(report):
        left, width = first * scale.slot, (behind - first) * scale.slot
        yield (f'<rect class="band {mode}" x="{left}" y="0" width="{width}" height="{scale.bottom}"/>')
        if width > 36:
            yield f'<text class="mode" x="{left + 6}" y="15">{mode}</text>'


def lane_parts(scale):
    """A line under each lane."""
    for lane in range(scale.lanes):
        y = scale.top + scale.lane * (lane + 1) - 3
        yield f'<path class="base" d="M0 {y}H{scale.width}"/>'


def step_path(newest, width_of, top, bottom):
    """The steps of the newest version as a path from left to right."""
    most = max(newest)
    path = [f'M0 {number(bottom)}']
    last = 0
    for entry, version in enumerate(newest):
        if version != last:
            path.append(f'H{number(width_of(entry))}V{number(bottom - (bottom - top) * version / most)}')
            last = version
    return ''.join(path) + f'H{number(width_of(len(newest) - 1))}'


def step_parts(facts, scale):
    """The newest version behind each entry, as steps; their numbers where there is room."""
    newest = facts.newest
    if not newest or not max(newest):
        return
    top = scale.top + 6

    def right(entry):
        return scale.slot * (entry + 1)

    path = step_path(newest, right, top, scale.bottom)
    yield f'<path class="steps" d="{path}V{scale.bottom}H0Z"/><path class="stair" d="{path}"/>'
    y = scale.track('version') + TRACK / 2 + 4
    changes = [entry for entry in range(len(newest)) if newest[entry] != (newest[entry - 1] if entry else 0)]
    free = 0
    for entry in changes:
        label = f'v{newest[entry]}'
        x = right(entry)
        if x >= free and x + 7 * len(label) <= scale.width:
            yield f'<text class="version" x="{x}" y="{number(y)}">{label}</text>'
            free = x + 7 * len(label) + 8


def bar_shape(entry, scale):
    """The bar of an entry by its end."""
    base = scale.top + scale.lane * (entry.worker + 1) - 3
    tall = scale.tall
    x = scale.middle(entry.number) - scale.bar / 2
    mid = scale.middle(entry.number)
    parts = []
    if entry.end.sort == 'exit':
        short = tall * 0.55
        parts.append(f'<rect x="{number(x)}" y="{number(base - short)}" width="{scale.bar}" '
                     f'height="{number(short)}"/>')
    else:
        inset = 0.75 if entry.end.sort == 'budget' else 0
        parts.append(f'<rect x="{number(x + inset)}" y="{number(base - tall + inset)}" '
                     f'width="{number(scale.bar - 2 * inset)}" height="{number(tall - 2 * inset)}"/>')
    if entry.end.sort == 'failure':
        arm = min(scale.bar / 2 - 1.5, 3.5)
        y = base - tall / 2
        parts.append(f'<path class="cross" d="M{number(mid - arm)} {number(y - arm)}l{number(2 * arm)} '
                     f'{number(2 * arm)}m0 {number(-2 * arm)}l{number(-2 * arm)} {number(2 * arm)}"/>')
    if entry.fired:
        y = base - tall - 4.5 if entry.end.sort != 'exit' else base - tall * 0.55 - 6
        parts.append(f'<path class="diamond" d="M{number(mid)} {number(y - 3.5)}l3.5 3.5l-3.5 3.5l-3.5 -3.5z"/>')
    return ''.join(parts)


def bar_title(entry, places):
    """What a pointer on the bar tells."""
    told = f'entry {entry.number}, run {entry.run}, worker {entry.worker}, {entry.mode}: ' \
           f'{end_words(entry.end, places)}, {count(entry.turns, "turn")}'
    if entry.fired:
        told += '; repair ' + ', '.join(f'{row.case}.{row.index}' for row in entry.fired) + ' fired'
    return told


def bar_parts(report, scale, places):
    """A link with a bar for each entry; its classes tell its end, its mode and whether a repair fired."""
    for entry in report.entries:
        case = report.case_of.get((entry.end.kind, entry.end.pc)) if entry.mode == 'live' else None
        cases = sorted({row.case for row in entry.fired} | ({case} if case is not None else set()))
        classes = ['bar', entry.end.sort, entry.mode] + (['fired'] if entry.fired else [])
        top = scale.top + scale.lane * entry.worker
        yield (f'<a href="#entry-{entry.number}" class="{" ".join(classes)}" data-cases="'
               f'{" ".join(map(str, cases))}"><title>{escape(bar_title(entry, places))}</title>'
               f'<rect class="hit" x="{scale.slot * entry.number}" y="{top}" width="{scale.slot}" '
               f'height="{scale.lane}"/>{bar_shape(entry, scale)}</a>')


def by_entry(pairs):
    """Cases by the entry that they belong to, in order of entries."""
    found = {}
    for entry, case in pairs:
        found.setdefault(entry, []).append(case)
    return sorted(found.items())


def marks_of(report):
    """What stands on each track: entries with their cases."""
    return {
        'opened': by_entry((case.opened, case.number) for case in report.cases),
        'installed': by_entry((change.entry, change.case) for change in report.changes if change.what == 'install'),
        'withdrawn': by_entry((change.entry, change.case) for change in report.changes if change.what == 'withdraw'),
    }


SHAPES = {'opened': 'M-4 0a4 4 0 1 0 8 0a4 4 0 1 0 -8 0z', 'installed': 'M-4.5 4L0 -4.5L4.5 4z',
          'withdrawn': 'M-4.5 -4L0 4.5L4.5 -4z'}


def track_parts(report, scale):
    """The marks of cases that opened, and of repairs that were installed and withdrawn; cases where there is room."""
    for name, found in marks_of(report).items():
        if name not in scale.tracks:
            continue
        y = scale.track(name) + TRACK / 2
        for place, (entry, cases) in enumerate(found):
            x = scale.middle(entry)
            room = (scale.middle(found[place + 1][0]) if place + 1 < len(found) else scale.width) - x - 14
            told = ', '.join(map(str, cases))
            title = f'entry {entry}: {"case" if len(cases) == 1 else "cases"} {told}: ' + (
                'opened' if name == 'opened' else f'repair {name}')
            label = next((text for text in (told, f'{cases[0]}+') if 7 * len(text) <= room), '')
            if label:
                label = f'<text x="{number(x + 7)}" y="{number(y + 4)}">{label}</text>'
            yield (f'<a href="#case-{cases[0]}" class="mark {name}"><title>{title}</title><path '
                   f'transform="translate({number(x)} {number(y)})" d="{SHAPES[name]}"/>{label}</a>')


def axis_parts(scale):
    """Numbers of entries below."""
    step = 1
    while step * scale.slot < 44:
        step = step * 2 if str(step)[0] in '15' else step * 5 // 2
    for entry in range(0, scale.entries, step):
        x = scale.middle(entry)
        yield f'<text class="tick" x="{number(x)}" y="{scale.bottom + 15}">{entry}</text>'


def labels(scale):
    """The names of tracks and lanes, which stay where they are while the rest is scrolled."""
    parts = [f'<svg class="names" width="76" height="{scale.height}" aria-hidden="true">']
    for name in scale.tracks:
        parts.append(f'<text x="0" y="{scale.track(name) + TRACK / 2 + 4}">{name}</text>')
    for lane in range(scale.lanes):
        parts.append(f'<text x="0" y="{scale.top + scale.lane * lane + scale.lane / 2 + 6}">worker {lane}</text>')
    parts.append(f'<text x="0" y="{scale.bottom + 15}">entry</text></svg>')
    return ''.join(parts)


def overview(report, facts, scale):
    """All entries in the width of the page: failures and budgets as ticks, versions as steps, changes above."""
    entries = max(scale.entries, 1)
    parts = [f'<div class="overview" hidden><svg viewBox="0 0 {entries} 40" preserveAspectRatio="none" '
             f'aria-hidden="true">']
    for first, behind, mode in rounds_of(report):
        parts.append(f'<rect class="band {mode}" x="{first}" y="0" width="{behind - first}" height="40"/>')
    if facts.newest and max(facts.newest):
        path = step_path(facts.newest, lambda entry: entry + 1, 10, 40)
        parts.append(f'<path class="steps" d="{path}V40H0Z"/>')
    for sort, top in (('failure', 16), ('budget', 26)):
        path = ''.join(f'M{entry.number} {top}h1V40h-1z' for entry in report.entries if entry.end.sort == sort)
        if path:
            parts.append(f'<path class="tick {sort}" d="{path}"/>')
    path = ''.join(f'M{entry} 0h1V7h-1z' for entry in sorted({change.entry for change in report.changes}))
    if path:
        parts.append(f'<path class="tick change" d="{path}"/>')
    parts.append('</svg><div class="window"></div></div>')
    return ''.join(parts)


BARS = (('exit', '<rect x="4" y="10" width="10" height="11"/>', 'exited'),
        ('failure', '<rect x="4" y="2" width="10" height="19"/><path class="cross" d="M6 8.5l6 6m0 -6l-6 6"/>',
         'failed'),
        ('budget', '<rect x="4.75" y="2.75" width="8.5" height="17.5"/>', 'budget used up'),
        ('exit fired', '<rect x="4" y="10" width="10" height="11"/><path class="diamond" d="M9 1l3.5 3.5l-3.5 3.5l-3.5 '
                       '-3.5z"/>', 'a repair fired'))
MARKS = (('opened', 'case opened'), ('installed', 'repair installed'), ('withdrawn', 'repair withdrawn'))


def legend(report, scale):
    """What the shapes mean that stand in this timeline."""
    there = {entry.end.sort for entry in report.entries} | {'exit fired' for entry in report.entries if entry.fired}
    items = [(f'<g class="bar {name}">{shape}</g>', text) for name, shape, text in BARS if name in there]
    items += [(f'<g class="mark {name}"><path transform="translate(9 13)" d="{SHAPES[name]}"/></g>', text)
              for name, text in MARKS if name in scale.tracks]
    if 'version' in scale.tracks:
        items.append(('<path class="stair" d="M1 20V14H9V6H17"/>', 'newest version of the patches'))
    told = ''.join(f'<li><svg width="18" height="22" aria-hidden="true">{shape}</svg>{text}</li>'
                   for shape, text in items)
    return f'<ul class="legend">{told}</ul>'


def timeline(report, facts, places):
    """The whole timeline as HTML."""
    scale = Scale(report)
    told = f'{count(scale.entries, "entry", "entries")} of {count(scale.lanes, "worker")} in the order of the history'
    parts = [overview(report, facts, scale), '<div class="timeline">', labels(scale),
             f'<div class="scroll" tabindex="0" role="region" aria-label="timeline: {told}">'
             f'<svg class="chart" width="{scale.width}" height="{scale.height}" role="group" aria-label="{told}">']
    parts += band_parts(report, scale)
    parts += step_parts(facts, scale)
    parts += lane_parts(scale)
    parts += track_parts(report, scale)
    parts += bar_parts(report, scale, places)
    parts += axis_parts(scale)
    parts.append(f'</svg></div></div>{legend(report, scale)}')
    return ''.join(parts)
