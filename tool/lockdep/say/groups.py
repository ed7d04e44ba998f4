"""Findings that share an order are one group: often it is one order that contradicts many others. Those of a kernel are one by their cause."""
from __future__ import annotations

from dataclasses import dataclass
from typing import Tuple

from ..program.findings import Cause, Finding

Dependency = Tuple[str, str, str]
Key = Tuple[Dependency, object]  # an order, and a signal's handler if the findings have one
MOST_GROUPS = 20  # that are told at once, on a terminal and of what was gathered
MOST_OTHERS = 20  # findings of a group that are named: of what was gathered besides the first one, and with each finding on a page
MOST_BESIDE = 5  # the same of a kernel's cause


@dataclass
class Group:
    """Findings, in their order, that all have one order, none if there is only one finding, or one cause."""

    findings: list[Finding]
    order: Dependency | None = None
    cause: Cause | None = None

    @property
    def shared(self) -> str:
        """The order as a report has it; empty if there is none."""
        return " ".join(self.order or ())


def holders_of(findings: list[Finding]) -> dict[Key, list[Finding]]:
    """For each order the findings that have it. Those of a signal's handler are none of others."""
    holders: dict[Key, list[Finding]] = {}
    for finding in findings:
        for dependency in dict.fromkeys(order.dependency for order in finding.orders):
            holders.setdefault((dependency, finding.handler), []).append(finding)
    return holders


def groups_of(findings: list[Finding]) -> list[Group]:
    """The groups, each where its first finding stands. The order that most findings have makes the first group, and so on with
    those that are left."""
    holders, groups, left = holders_of(findings), [], {finding.number for finding in findings}
    for key in sorted([key for key in holders if len(holders[key]) > 1], key=lambda key: -len(holders[key])):
        members = [finding for finding in holders[key] if finding.number in left]
        if len(members) > 1:
            groups.append(Group(members, key[0]))
            left -= {finding.number for finding in members}
    groups += [Group([finding]) for finding in findings if finding.number in left]
    place = {finding.number: number for number, finding in enumerate(findings)}
    return sorted(groups, key=lambda group: place[group.findings[0].number])


def groups_told(findings: list[Finding]) -> list[Group]:
    """The groups of what was gathered that are told: each finding by itself, unless there are too many; then the first groups."""
    return [Group([finding]) for finding in findings] if len(findings) <= MOST_GROUPS else groups_of(findings)[:MOST_GROUPS]


def groups_by_cause(findings: list[Finding]) -> list[Group]:
    """The groups of a kernel's findings. One without a cause is alone."""
    groups: dict[int, Group] = {}
    for finding in findings:
        groups.setdefault(id(finding.cause or finding), Group([], cause=finding.cause)).findings.append(finding)
    return list(groups.values())
