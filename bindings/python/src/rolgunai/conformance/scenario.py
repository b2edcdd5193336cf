"""Scenarios: texts of a head, `key: value` lines, and steps. docs/CONFORMANCE.md describes their form."""

from __future__ import annotations

import re
from collections.abc import Iterator
from dataclasses import dataclass, field
from pathlib import Path

FOLDER = Path(__file__).resolve().parent / "scenarios"
GROUPS = ("opening", "messages", "closing", "comm_info", "widgets", "hostile", "threads")
KEYS = ("title", "group", "source", "holds", "needs", "fault")


class ScenarioError(ValueError):
    """A scenario's text isn't in the form that one has."""


@dataclass
class Parts:
    """A message's type, and its parts as they stand in the text: JSON with $names, and words for the buffers."""

    kind: str
    content: str = "{}"
    metadata: str | None = None
    buffers: list[str] | None = None


@dataclass
class Due:
    """What must come of a step: what the proved manager answers, or these messages. Of `anything` nothing is asked, a
    cell may end in an `error`, and `end` says that there is nothing more to try."""

    manager: bool = False
    anything: bool = False
    parent: bool = False
    status: bool = False
    error: bool = False
    end: bool = False
    printed: str | None = None
    messages: list[Parts] = field(default_factory=list)
    each: Parts | None = None  # one for each message of the step


@dataclass
class Alternative:
    """One of the ways that a protocol leaves open, with those who go it."""

    name: str
    who: str
    due: Due = field(default_factory=Due)


@dataclass
class Step:
    """What is done, and what must come of it: what is due, or one of several alternatives.

    action is `shell` or `control` for a message, `cell` for a cell, or `storm`.
    """

    action: str
    parts: Parts
    times: int = 1
    due: Due | None = None
    question: str = ""
    alternatives: list[Alternative] = field(default_factory=list)


@dataclass
class Scenario:
    name: str
    title: str
    group: str
    source: str
    holds: str
    needs: list[str]
    fault: list[str]
    steps: list[Step]

    def cells(self) -> list[str]:
        """The cells that the kernel's language has to have."""
        return self.needs + [step.parts.kind for step in self.steps if step.action == "cell"]


class _Reader:
    """Reads the steps, line by line."""

    def __init__(self, name: str) -> None:
        self.name = name
        self.steps: list[Step] = []
        self.last: Parts | None = None
        self.due: Due | None = None

    def fail(self, line: str) -> ScenarioError:
        return ScenarioError(f"{self.name}: {line!r}")

    def line(self, line: str) -> None:
        word, _, rest = line.strip().partition(" ")
        rest = rest.strip()
        if word in (">", "cell", "storm"):
            self.step(word, rest)
        elif not self.steps:
            raise self.fail(line)
        elif word == "?":
            self.steps[-1].question = rest
        elif word == "=":
            name, _, who = rest.partition(":")
            self.due = Due()
            self.steps[-1].alternatives.append(Alternative(name.strip(), who.strip(), self.due))
        elif word == "<":
            self.expected(rest, line)
        elif word == "metadata" and self.last:
            self.last.metadata = rest
        elif word == "buffers" and self.last:
            self.last.buffers = rest.split()
        else:
            raise self.fail(line)

    def step(self, word: str, rest: str) -> None:
        found = re.fullmatch(r"(shell|control)( x\d+)? (\w+)(?: (.*))?", rest) if word == ">" else None
        if word == ">" and not found:
            raise self.fail(rest)
        if found:
            self.last = Parts(found[3], found[4] or "{}")
            self.steps.append(Step(found[1], self.last, int((found[2] or " x1")[2:])))
        else:
            self.last = None
            self.steps.append(Step(word, Parts(rest)))
        self.due = None

    def expected(self, rest: str, line: str) -> None:
        if self.due is None:
            self.due = self.steps[-1].due = Due()
        kind, _, content = rest.partition(" ")
        if kind in ("manager", "anything", "parent", "status", "error", "end"):
            setattr(self.due, kind, True)
        elif kind == "printed":
            self.due.printed = content
        elif kind == "each":
            kind, _, content = content.partition(" ")
            self.due.each = Parts(kind, content or "{}")
        elif kind.startswith("comm_"):
            self.last = Parts(kind, content or "{}")
            self.due.messages.append(self.last)
        elif kind != "nothing":
            raise self.fail(line)


def parse(name: str, text: str) -> Scenario:
    """The scenario that a text says.

    Raises ScenarioError where the text isn't in their form.
    """
    head, _, body = text.partition("\n\n")
    values = dict.fromkeys(KEYS, "")
    key = ""
    for line in head.splitlines():
        found = re.match(r"(\w+): *(.*)", line)
        if found and found[1] in KEYS:
            key = found[1]
            values[key] = found[2].strip()
        elif key and line.startswith(" "):
            values[key] += " " + line.strip()
        else:
            raise ScenarioError(f"{name}: {line!r}")
    reader = _Reader(name)
    for line in body.splitlines():
        if line.strip() and not line.startswith("#"):
            reader.line(line)
    missing = [key for key in KEYS if not values[key] and key != "needs"]
    undue = [step for step in reader.steps if not step.due and not step.alternatives]
    if missing or undue or values["group"] not in GROUPS or not reader.steps:
        raise ScenarioError(f"{name}: missing {missing}, group {values['group']!r}, nothing due of {undue}")
    return Scenario(
        name, values["title"], values["group"], values["source"], values["holds"],
        values["needs"].split(), values["fault"].split(), reader.steps,
    )  # fmt: skip


def scenarios(folder: Path = FOLDER) -> Iterator[Scenario]:
    """The scenarios of a folder, by groups and then by names."""
    found = [parse(path.stem, path.read_text(encoding="utf-8")) for path in sorted(folder.glob("*.txt"))]
    yield from sorted(found, key=lambda scenario: GROUPS.index(scenario.group))
