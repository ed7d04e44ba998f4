"""The picture of the findings: what `lockdep graph` writes, drawn by Graphviz, of which only shapes and words are kept."""
from __future__ import annotations

import re
import shutil
import xml.etree.ElementTree

from ..base.tools import PATIENCE_WITH_DOT, other_answer
from ..base.words import bytes_of, escaped
from ..program.checker import text_answer
from ..program.findings import Finding
from ..program.graph import EDGE, NODE, key_in, keys_of_edge


def marked_graph(graph: str, findings: list[Finding]) -> tuple[str, dict[str, list[int]]]:
    """A graph in the DOT language whose edges have ids, and the findings that each of them belongs to."""
    belongs: dict[tuple[str, str, str], list[int]] = {}
    for finding in findings:
        for edge in finding.edges():
            belongs.setdefault(edge, []).append(finding.number)
    lines, numbers = [], {}
    for line in graph.split("\n"):
        found = EDGE.match(line)
        if found:
            key, other = keys_of_edge(found)
            name = "edge%d" % (len(numbers) + 1)
            numbers[name] = belongs.get((key, other, found.group(3)), [])
            line = marked_edge(line, found, name)
        lines.append(line)
    return "\n".join(lines), numbers


def part_of_graph(graph: str, findings: list[Finding]) -> str:
    """The edges of a graph that belong to findings, with their nodes."""
    edges = {edge for finding in findings for edge in finding.edges()}
    keys = {key for start, end, _ in edges for key in (start, end)}

    def is_of_them(line: str) -> bool:
        edge, node = EDGE.match(line), NODE.match(line)
        if edge:
            return (*keys_of_edge(edge), edge.group(3)) in edges
        return not node or key_in(node.group(1)) in keys
    return "\n".join(filter(is_of_them, graph.split("\n")))


def marked_edge(line: str, found: re.Match, name: str) -> str:
    """An edge with an id. Its label gets a space on both sides, so that it doesn't touch its edge."""
    begin = found.start(3) - len('label="')
    return '%sid="%s", label=" %s "%s' % (line[:begin], name, found.group(3), line[found.end():])


ELEMENTS = {"svg", "g", "path", "polygon", "polyline", "ellipse", "text", "title"}
ATTRIBUTES = set("width height viewBox transform d points fill stroke stroke-width stroke-dasharray cx cy rx ry x y "
                 "text-anchor font-family font-size".split())
COLOURS = {"black": "currentColor", "white": "none"}


def svg_text(element: xml.etree.ElementTree.Element, numbers: dict[str, list[int]]) -> str:
    """An element of the picture with its contents, of which only shapes and words are kept."""
    name = str(element.tag).rpartition("}")[2]
    if name not in ELEMENTS:
        return ""
    kept = ""
    for attribute, value in element.attrib.items():
        if attribute in ATTRIBUTES and re.fullmatch(r"[-+A-Za-z0-9.,#%() \n]*", value) and "url" not in value.lower():
            value = COLOURS.get(value, value) if attribute in ("fill", "stroke") else value.replace("\n", " ")
            kept += ' %s="%s"' % (attribute, escaped(value))
    classes = ["in-%d" % number for number in numbers.get(element.get("id"), [])]
    if element.get("class") in ("node", "edge"):
        kept += ' class="%s"' % " ".join([element.get("class")] + classes)
    if name == "svg":
        kept += ' role="img" aria-label="The locks of the findings and their order"'
    inside = escaped((element.text or "").strip()) + "".join(svg_text(child, numbers) for child in element)
    return "<%s%s>%s</%s>" % (name, kept, inside, name)


def picture_of(findings: list[Finding], files: list[str], are_all: bool = True) -> tuple[str, str]:
    """The picture as SVG, or empty and why there is none: of all findings, or if there are more of these ones."""
    if not findings:
        return "", ""
    if not shutil.which("dot"):
        return "", "The picture needs Graphviz, whose program dot isn’t on this machine."
    graph = text_answer(["graph", "--findings", "--many", "--"] + files)
    graph, numbers = marked_graph(graph if are_all else part_of_graph(graph, findings), findings)
    drawn = other_answer(["dot", "-Tsvg", "-Nfontname=Courier", "-Efontname=Courier"], bytes_of(graph), PATIENCE_WITH_DOT)
    try:
        root = xml.etree.ElementTree.fromstring(drawn) if drawn else None
    except xml.etree.ElementTree.ParseError:
        root = None
    if root is None or not str(root.tag).endswith("svg"):
        return "", "Graphviz couldn’t draw the picture, or took more than %d seconds of processor time." % PATIENCE_WITH_DOT
    return svg_text(root, numbers), ""
