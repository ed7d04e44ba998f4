"""A finding on the page: the tasks side by side, each record with its source, and where the locks are made."""
from __future__ import annotations

import os
from dataclasses import replace
from typing import Callable

from ..ask.blocked import Blocked
from ..ask.breaches import Breach
from ..base.words import as_sentence, escaped, name_in
from ..binaries.cplusplus import without_parameters
from ..binaries.symbols import Frame, place_words
from ..places.sources import Sources, has_changed
from ..program.findings import Event, Finding
from ..program.schedules import Ring
from ..program.verdicts import Verdict
from ..record.handlers import words_of_handler
from ..record.threads import TASK, called, of_recording
from .explanation import inner_lines
from .found import Found
from .judged import called as called_task
from .judged import judged_lines, ring_of, steps_of_ring
from .sentences import words_of_ring_step
from .steps import Step, events_of, steps_of, task_count, task_name, words_of_step

REM_OF_TASK = 12  # how wide a task's column is, at least
DEADLOCK = "Deadlock"

TABLE = """<div class="scroll" tabindex="0" role="region" aria-label="%s">
<table class="tasks" style="min-width: %drem">
<thead><tr><th class="time" scope="col" aria-label="Time">↓</th>%s</tr></thead>
<tbody>
%s<tr><td class="time"></td><td class="end" colspan="%d">%s</td></tr>
</tbody>
</table>
</div>
"""


def key_html(sources: Sources) -> Callable[[str], str]:
    """How a key is written on the page: readable, and as a tooltip in the form that the traces have."""
    def shown(key: str) -> str:
        name = sources.shown_key(key)
        title = ' title="%s"' % escaped(key) if name != key else ""
        return "<code%s>%s</code>" % (title, escaped(name))
    return shown


def bare(frame: Frame) -> Frame:
    """A frame without its function's parameters."""
    return replace(frame, function=without_parameters(frame.function))


def step_html(finding: Finding, step: Step, events: list[Event], sources: Sources) -> str:
    """What a task does at one point, with a link to the record."""
    said = '<span class="%s">%s</span>' % (step.verb, words_of_step(step, key_html(sources)))
    return said + ("<br>" + link_html(finding, step.event, events, sources) if step.event else "")


def link_html(finding: Finding, event: Event, events: list[Event], sources: Sources) -> str:
    """Where a step comes from, with a link to its record."""
    place = place_words([bare(frame) for frame in sources.frames(event)[:1]]) or "%s: record %d" % (os.path.basename(event.file), event.record)
    return '<a href="#record-%d-%d">%s</a>' % (finding.number, list(dict.fromkeys(events)).index(event) + 1, escaped(place))


def task_title(finding: Finding, task: int, sources: Sources) -> str:
    """What stands above a task's column. With a signal the last one is its handler, and the first one the code that this interrupts."""
    name = task_name(finding, task + 1)
    if not finding.handler:
        return name.capitalize()
    if name == "the handler":
        return words_of_handler(finding.handler, sources.symbols)
    return "Thread 1, which %s interrupts" % finding.state if task == 0 else name.capitalize()


def files_of_task(steps: list[Step], task: int) -> set[str]:
    return {step.event.file for step in steps if step.task == task and step.event}


def title_of_task(finding: Finding, steps: list[Step], task: int, sources: Sources) -> str:
    """The title of a task, which is a thread if its only trace is one's."""
    names = {os.path.splitext(os.path.basename(file))[0] for file in files_of_task(steps, task)}
    number = TASK.fullmatch(names.pop()) if len(names) == 1 and not finding.handler else None
    return "Thread " + number.group(1) if number else task_title(finding, task, sources)


def task_head(finding: Finding, steps: list[Step], task: int, sources: Sources) -> str:
    """The head of a task's column, with its trace if it is only one."""
    files, title = files_of_task(steps, task), escaped(title_of_task(finding, steps, task, sources))
    if len(files) != 1:
        return '<th scope="col">%s</th>' % title
    trace = files.pop()
    name = os.path.join(*trace.split("/")[-3:]) if finding.handler else os.path.basename(trace)  # (below `signals`, a set has traces of its own)
    of = of_recording(trace, {step.event.file for step in steps if step.event})
    return '<th scope="col">%s<br><small>%s</small></th>' % (title, escaped(called(name + of, trace)))


def task_rows(finding: Finding, steps: list[Step], sources: Sources) -> str:
    rows, events, tasks = "", events_of(steps), task_count(steps)
    titles = [escaped(title_of_task(finding, steps, task, sources)) for task in range(tasks)]
    for number, step in enumerate(steps, 1):
        said = step_html(finding, step, events, sources)
        cells = "".join('<td data-task="%s">%s</td>' % (titles[task], said if task == step.task else "") for task in range(tasks))
        rows += '<tr><td class="time">%d</td>%s</tr>\n' % (number, cells)
    return rows


def end_of(finding: Finding) -> str:
    """What stands below the tasks: that they come so far is known only of what is possible."""
    return DEADLOCK if finding.verdict in (Verdict.HAPPENED, Verdict.POSSIBLE) else DEADLOCK + ", if they come so far together"


def task_table(finding: Finding, steps: list[Step], sources: Sources) -> str:
    """The tasks side by side: a column for each, with time running downwards."""
    tasks = task_count(steps)
    heads = "".join(task_head(finding, steps, task, sources) for task in range(tasks))
    return TABLE % ("What the tasks of finding %d do" % finding.number, REM_OF_TASK * tasks, heads, task_rows(finding, steps, sources), tasks, end_of(finding))


def excerpt_html(frame: Frame, event: Event, sources: Sources) -> str:
    """The source around a record's line."""
    lines = sources.excerpt(frame)
    if not lines:
        return ""
    width = len(str(lines[-1][0]))
    rows = ""
    for number, line in lines:
        line = "\t".join(escaped(part) for part in line.rstrip("\r").split("\t"))
        row = '<span class="number">%*d</span>  %s' % (width, number, line)
        rows += "<mark>%s</mark>\n" % row if number == frame.line else row + "\n"
    changed = ", which has changed since the recording: these may be other lines" if has_changed(frame.path, event.file) else ""
    return """<details open><summary class="soft">%s%s</summary><pre tabindex="0"><code>%s</code></pre></details>
""" % (escaped(frame.path), changed, rows)


def record_html(name: str, event: Event, sources: Sources) -> str:
    """A record: its text in the trace, unless it is one of a history, where it comes from, and the source around that."""
    said = ""
    if event in sources.records:
        said = ", line %d: <code>%s</code>" % (sources.records[event][0], escaped(sources.records[event][1]))
    if said or not sources.frames(event):
        said = "<p><code>%s</code>: record %d%s</p>\n" % (escaped(event.file), event.record, said)
    return '<div class="record" id="%s">\n%s%s</div>\n' % (name, said, place_html(event, sources))


def place_html(event: Event, sources: Sources) -> str:
    """Where a record comes from, and the source around that."""
    frames, source = sources.frames(event), sources.line_of(event)
    said = "<p>%s</p>\n" % escaped(place_words(frames)) if frames else ""
    return said + (excerpt_html(source, event, sources) if source else "")


def lock_lines(finding: Finding, steps: list[Step], sources: Sources) -> str:
    """Where the locks are made, as far as that is known."""
    keys = dict.fromkeys(step.key for step in steps if step.key)
    made = [(key, sources.made_words(made)) for key in keys for made in sources.made_as(name_in(key))]
    lines = "".join("<li>%s: %s</li>\n" % (key_html(sources)(key), escaped(words)) for key, words in made if words)
    return '<h3>Where the locks are made</h3>\n<ul class="list">\n%s</ul>\n' % lines if lines else ""


def inner_html(finding: Finding, sources: Sources) -> str:
    """The records of the finding between single locks that aren't among those above."""
    lines = "".join(escaped(line.text.strip()) + "\n" for line in inner_lines(finding, sources))
    return '<h3>Between single locks</h3>\n<pre tabindex="0"><code>%s</code></pre>\n' % lines if lines else ""


def stood_html(finding: Finding) -> str:
    """Where the threads stood still, if the finding happened."""
    lines = "".join(escaped(line) + "\n" for line in finding.happened.lines()) if finding.happened else ""
    return '<h3>Where its threads stood still</h3>\n<pre tabindex="0"><code>%s</code></pre>\n' % lines if lines else ""


def why_html(finding: Finding, sources: Sources) -> str:
    """The steps that keep the tasks of a cycle apart, if such are known."""
    ring = ring_of(finding)
    lines = "".join(escaped(line) + "\n" for line in judged_lines(finding, sources)) if ring and not ring.schedule else ""
    return '<h3>What keeps these steps apart</h3>\n<pre tabindex="0"><code>%s</code></pre>\n' % lines if lines else ""


def ring_table(finding: Finding, ring: Ring, found: Found) -> str:
    """The tasks of a ring side by side: what each takes and waits for at last."""
    steps, shown, sources = steps_of_ring(ring), found.names.of_ring(ring), found.sources
    tasks, events = list(dict.fromkeys(step.task for step in steps)), [step.event for step in steps]
    titles = {task: escaped(name[:1].upper() + name[1:]) for task in tasks for name in [called_task(task, finding)]}
    heads = "".join('<th scope="col">%s</th>' % titles[task] for task in tasks)
    rows = ""
    for number, step in enumerate(steps, 1):
        said = '<span class="%s" title="%s">%s</span><br>%s' % (step.verb.partition(" ")[0], escaped(step.lock), escaped(words_of_ring_step(step, shown)),
                                                                link_html(finding, step.event, events, sources))
        rows += '<tr><td class="time">%d</td>%s</tr>\n' % (number, "".join('<td data-task="%s">%s</td>' % (
            titles[task], said if task == step.task else "") for task in tasks))
    return TABLE % ("What the threads of finding %d do in another order" % finding.number, REM_OF_TASK * len(tasks), heads, rows, len(tasks), DEADLOCK)


def steps_html(finding: Finding, found: Found) -> str:
    """The tasks side by side, by the steps that stand still if there are such, and the record of each step."""
    ring, steps, sources = ring_of(finding), steps_of(finding), found.sources
    if ring and ring.schedule:
        said, events = "<h3>The recorded steps that stand still, in another order</h3>\n" + ring_table(finding, ring, found), [
            step.event for step in steps_of_ring(ring)]
    else:
        said, events = task_table(finding, steps, sources) if steps else "", events_of(steps)
    records = "".join(record_html("record-%d-%d" % (finding.number, place), event, sources) for place, event in enumerate(dict.fromkeys(events), 1))
    return said + ("<h3>The records</h3>\n" + records if records else "")


def finding_html(finding: Finding, found: Found, group: str = "") -> str:
    number, sources = finding.number, found.sources
    said = '<article id="finding-%d" aria-labelledby="head-%d">\n' % (number, number)
    said += '<h2 id="head-%d" title="%s">%d. %s</h2>\n' % (number, escaped(finding.head), number, escaped(found.title(finding)))
    said += '<ul class="list">\n%s</ul>\n' % "".join("<li>%s</li>\n" % escaped(row) for row in found.rows(finding))
    said += "".join('<p class="note">%s</p>\n' % escaped(as_sentence(remark)) for remark in found.all_remarks(finding)) + group
    said += stood_html(finding) + why_html(finding, sources) + steps_html(finding, found)
    said += inner_html(finding, sources) + lock_lines(finding, steps_of(finding), sources)
    lines = "".join(escaped(line) + "\n" for line in finding.lines)
    said += '<details><summary class="soft">Its lines in the report, as a list of known findings has them</summary>'
    return said + '<pre tabindex="0"><code>%s</code></pre></details>\n</article>\n' % lines


def breach_html(number: int, breach: Breach, sources: Sources) -> str:
    """What was done against what the program says of its locks, and where."""
    said = '<article id="breach-%d" aria-label="Breach %d">\n<p>%s</p>\n' % (
        number, number, escaped(as_sentence(sources.demangler.text(breach.sentence))))
    for words, event in breach.lines():
        said += '<h3>%s</h3>\n<div class="record">\n%s</div>\n' % (words.capitalize(), place_html(event, sources))
    return said + "</article>\n"


def blocked_html(number: int, thread: Blocked, sources: Sources) -> str:
    """A thread that was blocked at the end, with the records that it, and who holds the lock, came to."""
    said = '<article id="blocked-%d" aria-label="Blocked thread %d">\n<p>%s</p>\n' % (
        number, number, escaped(as_sentence(sources.demangler.text(thread.sentence))))
    for place, event in enumerate(thread.events, 1):
        said += record_html("blocked-%d-%d" % (number, place), event, sources)
    return said + "</article>\n"
