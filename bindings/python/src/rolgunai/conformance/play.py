"""Plays scenarios on a kernel, and says what came of each."""

from __future__ import annotations

import json
import time
from collections.abc import Iterator
from dataclasses import dataclass, field
from typing import Any

from rolgunai import ArgumentError
from rolgunai.conformance.compare import Names, buffers_of, message_fits, normal, shown
from rolgunai.conformance.frontend import Came, Frontend, Message, NotAnswering
from rolgunai.conformance.reference import Reference
from rolgunai.conformance.scenario import Due, Parts, Scenario, Step
from rolgunai.conformance.storm import storm

Json = Any
UNREADABLE = (ArgumentError, AttributeError, LookupError, TypeError, ValueError)  # by what isn't of the protocol's form
SUBSHELLS = "kernel subshells"  # among the supported_features of kernel_info_reply
EXCHANGE = 200  # lines of a report
PASSED, FAILED, CHOICE, SKIPPED = "passed", "failed", "choice", "skipped"


@dataclass
class Result:
    """What came of a scenario: passed, failed, choice or skipped; why, or which choices; and what went to and fro."""

    scenario: Scenario
    outcome: str = PASSED
    reasons: list[str] = field(default_factory=list)
    exchange: list[str] = field(default_factory=list)
    seconds: float = 0

    def add(self, outcome: str, reason: str) -> None:
        if self.outcome != FAILED:
            self.outcome = outcome
        self.reasons.append(reason)


class Skip(Exception):
    """What the scenario wants isn't in this kernel."""


class Player:
    """Plays scenarios on one kernel, which it starts anew where one left it without an answer."""

    def __init__(self, frontend: Frontend, cells: dict[str, str], storm_seconds: float = 2, anew: bool = True) -> None:
        """`anew` says whether a kernel is started anew after each failure, so that none brings about another."""
        self.frontend = frontend
        self.cells = cells
        self.storm_seconds = storm_seconds
        self.anew = anew
        self.gone = ""  # why the kernel couldn't be started anew

    def play(self, scenario: Scenario) -> Result:
        """Plays a scenario, where the kernel could be started. Never raises what a kernel brings about."""
        result, begin = Result(scenario), time.monotonic()
        if self.gone:
            result.add(FAILED, f"not played, since the kernel didn't start anew: {self.gone}")
            return result
        answers = True
        try:
            Playing(self, scenario, result).all()
        except Skip as skip:
            result.outcome, result.reasons = SKIPPED, [str(skip)]
        except NotAnswering as error:
            answers = False
            result.add(FAILED, str(error))
        except UNREADABLE as error:
            result.add(FAILED, f"what came couldn't be read: {type(error).__name__}: {error}")
        if not answers or (self.anew and result.outcome == FAILED):
            self.start_anew(result)
        result.seconds = time.monotonic() - begin
        return result

    def start_anew(self, result: Result) -> None:
        try:
            self.frontend.restart()
        except NotAnswering as error:
            self.gone = str(error)
            result.add(FAILED, f"and after it the kernel didn't start anew: {self.gone}")


class Playing:
    """One scenario that is being played."""

    def __init__(self, player: Player, scenario: Scenario, result: Result) -> None:
        self.frontend, self.cells, self.player = player.frontend, player.cells, player
        self.scenario, self.result = scenario, result
        self.names, self.reference, self.ended = Names(), Reference(), False

    def all(self) -> None:
        for cell in self.scenario.cells():
            if cell not in self.cells:
                raise Skip(f"no cell [{cell}] for kernels of {self.frontend.language() or 'this language'}")
        for cell in self.scenario.needs:
            came = self.run(cell)
            if came.error:
                return self.fail(f"the cell [{cell}] ended in {came.error}")
            self.reference.prepare(cell)
        for number, step in enumerate(self.scenario.steps, 1):
            self.step(number, step)
            if self.ended or self.result.outcome == FAILED:
                break
        if self.result.outcome != FAILED or not self.player.anew:
            self.end()

    def fail(self, reason: str) -> None:
        self.result.add(FAILED, reason)

    def log(self, mark: str, value: Json) -> None:
        exchange = self.result.exchange
        if len(exchange) < EXCHANGE:
            exchange.append(f"{mark} {shown(value)}" if len(exchange) < EXCHANGE - 1 else "..")

    def run(self, cell: str) -> Came:
        self.log("cell", f"[{cell}]")
        came = self.frontend.run(self.cells[cell])
        if came.printed.startswith("skip: "):
            raise Skip(came.printed[6:].strip())
        self.log_came(came)
        return came

    def log_came(self, came: Came) -> None:
        for message in came.messages:
            self.log("<", message)
        if came.printed or came.error:
            self.log("<", came.printed + came.error)

    def step(self, number: int, step: Step) -> None:
        """Does a step, and compares what came with what is due."""
        sent: list[str] = []
        due: list[Message] = []
        if step.action == "storm":
            if step.parts.kind == "subshell" and SUBSHELLS not in self.frontend.info.get("supported_features", []):
                raise Skip("the kernel has no subshells")
            for fault in storm(self.frontend, step.parts.kind, self.player.storm_seconds):
                self.fail(fault)
            return
        if step.action == "cell":
            came = self.run(step.parts.kind)
            if step.parts.kind == "unregister":
                self.reference.unregister("echo")
        else:
            sent, due = self.send(step)
            came = self.frontend.gather(sent, step.action)
            self.log_came(came)
        if step.due:
            self.must(number, list(self.faults(step.due, step, came, sent, due)))
        else:
            self.choose(number, step, came, sent, due)
        if step.action == "cell":
            for message in self.mine(came):
                self.reference.adopt(message)

    def send(self, step: Step) -> tuple[list[str], list[Message]]:
        """Sends a step's messages. Gives their msg_ids and what the proved manager answers to them."""
        parts = step.parts
        sent: list[str] = []
        due: list[Message] = []
        metadata = json.loads(parts.metadata or "{}")
        buffers = buffers_of(parts.buffers)
        for number in range(step.times):
            content = self.names.text(parts.content, number)
            self.log(f"> {step.action} {parts.kind}", content.decode())
            due += self.reference.message(parts.kind, content, metadata, buffers)
            sent.append(self.frontend.send(step.action, parts.kind, content, metadata, buffers))
        return sent, due

    def mine(self, came: Came) -> list[Message]:
        """The messages of the scenario's comms, and replies."""
        return [
            message for message in came.messages
            if message.channel != "iopub" or not isinstance(message.content, dict)
            or self.names.own(message.content.get("comm_id"))
        ]  # fmt: skip

    def faults(self, due: Due, step: Step, came: Came, sent: list[str], answers: list[Message]) -> Iterator[str]:
        """What of a step isn't as it must be."""
        if came.error and not (due.anything or due.error):
            yield f"the cell ended in {came.error}"
        if due.printed is not None and came.printed.strip() != self.names.text(due.printed).decode():
            yield f"printed was {came.printed.strip()!r}, due was {due.printed!r}"
        if due.status and came.states != ["busy", "idle"] * max(1, len(sent)):
            yield f"the execution states were {came.states}, due are busy and idle"
        if due.manager:
            yield from self.as_manager(answers, came)
        elif due.each:
            yield from self.each(due.each, step.times, came)
        elif not due.anything:
            yield from self.as_listed(due, came)
        for message in self.mine(came) if due.parent else []:
            if message.parent not in sent:
                yield f"the parent of {message.kind} is another message: {message.parent or 'none'}"
        for message in came.messages:
            if message.kind == "comm_info_reply" and message.channel != step.action:
                yield f"the reply came on {message.channel}, and was asked on {step.action}"

    def normal(self, messages: list[Message]) -> Json:
        return [normal(message, self.names) for message in messages]

    def as_manager(self, answers: list[Message], came: Came) -> Iterator[str]:
        wanted, got = (self.normal(messages) for messages in (answers, self.mine(came)))
        if wanted != got:
            yield f"came: {shown(got)}; due: {shown(wanted)}"

    def each(self, wanted: Parts, times: int, came: Came) -> Iterator[str]:
        found = sum(message_fits(wanted, message, self.names) for message in came.messages)
        if found != times:
            yield f"{times} messages were sent, and {found} came of {wanted.kind} {wanted.content}"

    def as_listed(self, due: Due, came: Came) -> Iterator[str]:
        rest = list(came.messages)
        for wanted in due.messages:
            found = next((at for at, message in enumerate(rest) if message_fits(wanted, message, self.names)), None)
            if found is None:
                yield f"came: {', '.join(map(shown, came.messages[:5])) or 'nothing'}; due: " \
                    f"{wanted.kind} {wanted.content} {wanted.metadata or ''} {' '.join(wanted.buffers or [])}".rstrip()
                return
            del rest[found]
        for message in rest:
            if isinstance(message.content, dict) and self.names.own(message.content.get("comm_id")):
                yield f"came: {shown(message)}, which isn't due"

    def must(self, number: int, faults: list[str]) -> None:
        for fault in faults:
            self.fail(f"step {number}: {fault}")

    def choose(self, number: int, step: Step, came: Came, sent: list[str], answers: list[Message]) -> None:
        """Which of the alternatives came."""
        said = []
        for alternative in step.alternatives:
            faults = list(self.faults(alternative.due, step, came, sent, answers))
            if not faults:
                self.ended = alternative.due.end
                who = f" (as {alternative.who})" if alternative.who else ""
                return self.result.add(CHOICE, f"{step.question}: {alternative.name}{who}")
            said.append(f"not {alternative.name!r}: {faults[0]}")
        self.must(number, [f"none of the ways that the protocol leaves; {'; '.join(said)}"])

    def end(self) -> None:
        """Closes what the scenario left open."""
        for name in self.names.ids():
            self.frontend.send("shell", "comm_close", json.dumps({"comm_id": name, "data": {}}).encode())
        self.frontend.gather([], "shell")
