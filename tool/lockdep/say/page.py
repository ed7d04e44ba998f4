"""The findings as a page: one file, which has no script and fetches nothing; its own policy wouldn't let it."""
from __future__ import annotations

import os
import time
from typing import Callable

from ..ask.blocked import Blocked
from ..base.home import HOME
from ..base.words import as_sentence, counted, escaped, text_of
from ..program.checker import version
from ..program.findings import Finding
from .found import HANG, Found, moment
from .groups import MOST_OTHERS, groups_of
from .page_finding import blocked_html, breach_html, finding_html
from .picture import picture_of

STYLE = os.path.join(HOME, "tool", "lockdep", "say", "page.css")

# How the lines of findings are read, and the marks in the picture.
LEGEND = """<details class="soft"><summary>How to read a line</summary>
<p><code>A/0 EN B/0</code>: a task takes a lock of class B, subclass 0, while it holds one of class A. The first letter
says how A is held: E by a writer, S by a reader. The second says how B is taken: R by a recursive reader, who waits only
for writers; N by a writer or another reader. A circle is a cycle of such orders, and ends with the lock that it begins
with.</p>%s</details>
"""
LEGEND_OF_SIGNALS = """
<p><code>double SIGNAL:HANDLER A/0</code>: the handler of that signal takes a lock of class A, and other code holds it
with the signal unblocked. <code>inversion SIGNAL:HANDLER A/0 B/0</code>: it takes A, under which B is taken, and other
code holds B with the signal unblocked.</p>"""
LEGEND_OF_PICTURE = """<p class="soft">Point at a line, and its edges light up. A dashed edge goes from a lock that
is held with interrupts on to one that is taken in an interrupt. In braces are a lock’s marks for hardirqs, hardirqs as
a reader, softirqs, and softirqs as a reader: <code>+</code> it is held with them on, <code>-</code> it is taken in one,
<code>?</code> both, <code>.</code> neither.</p>
"""


def style() -> str:
    with open(STYLE, "rb") as file:
        return "\n" + text_of(file.read())


def lighting(findings: list[Finding]) -> str:
    """The rules that highlight a finding's own edges while its line beside the picture is pointed at, or has the keyboard's
    focus. The picture is a later item of the same list, since rules of `:has` take a browser many seconds if there are hundreds
    of findings."""
    rules = ""
    for finding in findings:
        lit = ":is(.of-%d:hover, .of-%d:focus-within) ~ .drawn .in-%d" % ((finding.number,) * 3)
        rules += "%s path { stroke-width: 4 } %s text { font-weight: bold }\n" % (lit, lit)
    return rules


def title_of(found: Found) -> str:
    if found.findings or found.breaches:
        return counted(len(found.findings) + len(found.breaches), "finding")
    if found.blocked:
        return counted(len(found.blocked), "blocked thread")
    nothing = "Nothing new was found" if found.known else "Nothing was found"
    return nothing + (" in what was checked" if found.left_out else "")


def warnings_html(found: Found) -> str:
    """What was left out, who waited at the end, and which signal handlers weren't seen."""
    said = ""
    if found.left_out:
        said += '<p class="warning">Not all was checked. Left out: %s.</p>\n' % escaped(found.left_out)
    if found.waiting:
        lines = "".join("<li>%s</li>\n" % escaped(line) for line in found.waiting)
        said += '<p class="warning">%s</p>\n<ul class="list">\n%s</ul>\n' % (HANG, lines)
    for line in found.signals.lines() if found.signals else ():
        said += '<p class="note">%s</p>\n' % escaped(as_sentence(line))
    return said


def header(found: Found) -> str:
    """What was checked, and the findings, one line each."""
    said = "<header>\n<h1>%s</h1>\n<p>Checked: %s; on %s, by %s.</p>\n" % (
        title_of(found), found.checked, time.strftime("%Y-%m-%d %H:%M UTC", moment()), escaped(version()))
    said += warnings_html(found)
    if found.known:
        said += "<p>%s left out.</p>\n" % counted(len(found.known), "more known finding is", "more known findings are")
    for reason in dict.fromkeys(reason for _, reason in found.libraries):
        said += '<p class="note">The tool’s own list of libraries has %s of these: %s.</p>\n' % (
            sum(other == reason for _, other in found.libraries), escaped(reason))
    if found.findings:
        left = len(found.findings) - len(found.shown)
        more = "<p>%s not on this page. %s</p>\n" % (counted(left, "more finding is", "more findings are"), found.who_has_all) if left else ""
        return said + finding_list(found.shown, "Findings", found) + more + legend(found.shown) + "</header>\n"
    return said + "<p>This says nothing about what isn’t in the traces.</p>\n</header>\n"


def legend(findings: list[Finding]) -> str:
    return LEGEND % (LEGEND_OF_SIGNALS if any(finding.handler for finding in findings) else "")


def finding_list(findings: list[Finding], label: str, found: Found, last: str = "") -> str:
    """The findings, one line each with its verdict, with links to them, and a last item of another kind."""
    lines = "".join('<li class="of-%d" value="%d"><a href="#finding-%d" title="%s">%s</a>%s</li>\n' % (
        *(finding.number,) * 3, escaped(finding.head), escaped(found.title(finding)), found.verdict_of(finding)) for finding in findings)
    return '<nav aria-label="%s">\n<ol class="list" style="--digits: %d">\n%s</ol>\n</nav>\n' % (
        label, max(len(str(finding.number)) for finding in findings), lines + last)


def section(name: str, title: str, said: str) -> str:
    return '<section id="%s" aria-labelledby="%s-head">\n<h2 id="%s-head">%s</h2>\n%s</section>\n' % (name, name, name, title, said)


def threads_html(threads: list[Blocked], found: Found) -> str:
    """The threads that were blocked at the end."""
    said = "".join(blocked_html(number, thread, found.sources) for number, thread in enumerate(threads, 1))
    return section("blocked", "Blocked at the end", said) if threads else ""


def breaches_html(found: Found) -> str:
    """What was done against what the program says of its locks."""
    said = "".join(breach_html(number, breach, found.sources) for number, breach in enumerate(found.breaches, 1))
    return section("breaches", "Against what the program says of its locks", said) if said else ""


def picture_html(findings: list[Finding], drawn: str, reason: str, found: Found) -> str:
    """The picture with the findings beside it, or why there is none."""
    if drawn:
        drawn = '<li class="drawn"><div class="scroll" tabindex="0" role="region" aria-label="Picture">\n%s\n</div></li>\n' % drawn
        said = LEGEND_OF_PICTURE + finding_list(findings, "Findings in the picture", found, drawn)
    elif reason:
        command = "lockdep graph --findings --many FILE... | dot -Tsvg &gt;locks.svg"
        said = "<p>%s <code>%s</code> draws it elsewhere.</p>\n" % (escaped(reason), command)
    else:
        return ""
    return section("picture", "The picture", said)


def needs_html(found: Found) -> str:
    """What is needed for source lines, if a recording has places but none of them is a line."""
    from ..binaries.symbols import has_addr2line
    if not found.sources.symbols.is_asked:
        return ""
    if not has_addr2line():
        return "<p>Source lines need addr2line of the binutils, which isn’t on this machine.</p>\n"
    if found.sources.symbols.has_lines:
        return ""
    return "<p>Source lines need debug information, and this program has none: build it with <code>-g</code>.</p>\n"


def groups_html(found: Found) -> Callable[[Finding], str]:
    """For a finding of a group, what the others have in common with it."""
    said = {}
    for group in [] if found.has_causes else groups_of(found.shown):
        links = ", ".join('<a href="#finding-%d">%d</a>' % (finding.number, finding.number) for finding in group.findings[:MOST_OTHERS])
        left = len(group.findings) - MOST_OTHERS
        links += " and %s" % counted(left, "more", "more") if left > 0 else ""
        for finding in group.findings if group.shared else ():
            said[finding.number] = '<p class="soft">Findings that have the order <code>%s</code>: %s</p>\n' % (escaped(group.shared), links)
    return lambda finding: said.get(finding.number, "")


def page(found: Found) -> str:
    """The whole page."""
    in_picture = [finding for finding in found.shown if not finding.handler]
    drawn, reason = ("", found.why_undrawn) if found.why_undrawn else picture_of(in_picture, found.class_files(), not found.has_causes)
    of_group = groups_html(found)
    return """<!DOCTYPE html>
<html lang="en">
<head>
<meta charset="utf-8">
<meta http-equiv="Content-Security-Policy" content="default-src 'none'; style-src 'unsafe-inline'; base-uri 'none'">
<meta name="viewport" content="width=device-width, initial-scale=1">
<meta name="color-scheme" content="light dark">
<title>lockdep: %s</title>
<style>%s%s</style>
</head>
<body>
%s%s<main>
%s%s</main>
</body>
</html>
""" % (title_of(found), style(), lighting(in_picture) if drawn else "", header(found), needs_html(found),
       threads_html(found.blocked, found) + breaches_html(found) + "".join(finding_html(finding, found, of_group(finding)) for finding in found.shown),
       picture_html(in_picture, drawn, reason, found))
