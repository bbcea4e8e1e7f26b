"""The page: one file of HTML with its style and its few lines of script inside. It asks the network for nothing."""
import os
from html import escape

from .facts import WHY_DROPPED
from .headline import changed_words, ends_words, states_words, story
from .page_cases import beside_html, cases_html, cures_html, links_html, unlike_html
from .page_runs import runs_html
from .timeline import timeline
from .words import count

HERE = os.path.dirname(os.path.abspath(__file__))


def part(name):
    """The text of a file beside this one."""
    with open(os.path.join(HERE, name), encoding='utf-8') as file:
        return file.read()


def tile(name, figure, text, classes=''):
    """A figure of the summary."""
    return f'<div class="tile {classes}"><dt>{name}</dt><dd><b>{figure}</b><span>{text}</span></dd></div>'


def tiles_html(report, facts):
    """The figures of the summary."""
    job = report.job
    tiles = [tile('runs', f'{len(report.entries):,}', f'{facts.learn.all:,} learn, {facts.live.all:,} live'),
             tile('live failures', f'{facts.live.failures:,}', 'no repair was installed', 'failures')]
    if facts.first_repair is not None:
        tiles[1] = tile('live failures', f'{len(facts.failures_before):,} <i>then</i> {len(facts.failures_after):,}',
                        'before and after a repair', 'failures')
    tiles.append(tile('cases', f'{len(report.cases):,}', states_words(facts) or 'no live run failed'))
    tiles.append(tile('repairs', f'{facts.installed:,}', f'installed; {facts.withdrawn:,} withdrawn'))
    tiles.append(tile('a repair fired', f'{len(facts.fired):,}',
                      'runs' if not facts.fired else f'{"run" if len(facts.fired) == 1 else "runs"}: '
                                                     f'{ends_words(facts.fired_ends)}'))
    tiles.append(tile('learned', f'{report.learned:,}', f'invariants, of {count(facts.learn.exits, "good learn run")}'
                      if report.form == 1 else 'invariants of good runs'))
    limits = f'{count(job.workers, "worker")}, {count(job.rounds, "round")}, {job.checks} checks a case, at most ' \
             f'{count(job.budget, "turn")} a run, {count(len(report.versions), "version")}'
    return f'<dl class="tiles">{"".join(tiles)}</dl><p class="quiet">{limits}</p>'


def notes_html(report, facts, beside):
    """What else a reader should know: repairs that changed good runs, cases that were dropped and why, failures of no
    case, full outputs."""
    warned = [each.entry for each in beside or [] if each.warning]
    notes = [f'<b class="warning"><i aria-hidden="true">&#9888;</i> {changed_words(warned)}</b>: '
             f'{links_html(report, warned)}'] if warned else []
    notes += [f'{count(number, "case")} dropped: {WHY_DROPPED[why]}' for why, number in facts.dropped.items() if number]
    for numbers, text in ((facts.learn_not_exit, 'did not exit, and taught nothing'),
                          (facts.output_full, 'reached the limit of its output')):
        if numbers:
            what = count(len(numbers), 'learn run' if numbers is facts.learn_not_exit else 'run')
            notes.append(f'{what} {text if len(numbers) == 1 else text.replace("its output", "their outputs")}: '
                         f'{links_html(report, numbers)}')
    if facts.no_case:
        notes.append(f'{count(len(facts.no_case), "live failure")} of no case, as 64 stand: '
                     f'{links_html(report, facts.no_case)}')
    if facts.missing:
        notes.append(f'{count(facts.missing, "run")} of the job {"has" if facts.missing == 1 else "have"} no entry')
    return f'<ul class="notes">{"".join(f"<li>{note}</li>" for note in notes)}</ul>' if notes else ''


def page(name, report, facts, places, job=None, beside=None, unlike=()):
    """The whole page as text."""
    sections = [('timeline', 'Timeline'), ('cases', 'Cases')]
    told = beside_html(report, beside, places)
    sections += [('beside', 'Plain beside patched')] if told else []
    other = unlike_html(report, unlike)
    sections += [('unlike', 'Unlike the learn runs')] if other else []
    sections.append(('runs', 'Runs'))
    links = ''.join(f'<a href="#{place}">{text}</a>' for place, text in sections)
    return (
        f'<!doctype html>\n<html lang="en"><head><meta charset="utf-8"><title>{escape(name)} - clearview</title>'
        f'<meta name="viewport" content="width=device-width, initial-scale=1">'
        f'<meta name="color-scheme" content="light dark"><link rel="icon" href="data:,">'
        f'<style>{part("page.css")}</style></head>\n<body><header><div class="title">'
        f'<h1><span>clearview report</span>{escape(name)}</h1>'
        f'<button type="button" id="theme" hidden>dark</button></div><p class="story">'
        f'{escape(story(report, facts))}</p>{cures_html(report, places)}{tiles_html(report, facts)}'
        f'{notes_html(report, facts, beside)}<nav>{links}</nav>'
        f'</header>\n<main><section id="timeline"><h2>Timeline</h2>{timeline(report, facts, places)}</section>\n'
        f'{cases_html(report, facts, places)}\n{told}{other}\n{runs_html(report, facts, places, job)}</main>\n'
        f'<footer>Form {report.form} of the report. Made by tools/show; docs/SHOW.md says how to read it.</footer>'
        f'<script>{part("page.js")}</script></body></html>\n')
