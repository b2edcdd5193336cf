"""What must hold of the answers and the entries by themselves. Each rule gives the faults that it finds."""
from dataclasses import dataclass

STOCK = 2  # targets of each kind
HISTORY = 1_000_000  # changes at most
READS = ("state", "info")


@dataclass(frozen=True)
class Fault:
    """The rule that doesn't hold, and where."""

    rule: str
    text: str

    def __str__(self):
        return f"{self.rule}: {self.text}"


@dataclass(frozen=True)
class Asked:
    """What is known of a line before the run: the line, and what the one-thread manager told of it where it played the
    script as it stands. Its state doesn't matter then, but for `no_stock`: whether the line can be read, and whether it
    is a read or a change."""

    line: object
    told: object

    @property
    def is_bad(self):
        return self.told.kind == "bad" and self.told.words != b"no_stock"

    @property
    def is_read(self):
        return self.told.kind in READS

    @property
    def client(self):
        """Who plays it. A line that can't be read is client 0's, who hears nobody before it."""
        return 0 if self.is_bad else self.line.client

    @property
    def heard(self):
        return None if self.is_bad else self.line.heard

    @property
    def registers(self):
        """The kind of target that it takes from the stock, or None."""
        return None if self.is_bad or self.line.fields.get("call") != "register" else self.line.fields["kind"]


def lines_answered(asked, run):
    """Each line is answered once, by its own client, in the order of the clients and of their lines."""
    wanted = sorted((it.client, it.line.number) for it in asked.values())
    given = [(it.client, it.line) for it in run.answers]
    if wanted == given:
        return
    for client, line in sorted(set(wanted) - set(given)):
        yield Fault("lines", f"line {line} isn't answered by client {client}")
    for client, line in sorted(set(given) - set(wanted)):
        yield Fault("lines", f"client {client} answers line {line}, which isn't its own")
    if len(set(given)) < len(given):
        yield Fault("lines", "a line is answered twice")
    if sorted(given) != given:
        yield Fault("lines", "the answers aren't in the order of the clients and of their lines")


def kinds_fit(asked, run):
    """A line that can't be read is told bad, by the same words; a read is answered by a read, and a change by a reply,
    if there is room and stock."""
    for it in run.answers:
        told = asked[it.line].told
        if it.kind in ("bad", "unavailable") and it.number != it.line:
            yield Fault("kind", f"line {it.line} is answered as line {it.number}")
        if asked[it.line].is_bad:
            if (it.kind, it.words) != ("bad", told.words):
                yield Fault("bad", f"line {it.line} is told {it.text()[:100]!r}, and not bad {told.words!r}")
        elif asked[it.line].is_read:
            if it.kind != told.kind:
                yield Fault("kind", f"line {it.line} is a read, and is told {it.text()[:100]!r}")
        elif it.kind == "bad":
            if it.words != b"no_stock" or asked[it.line].registers is None:
                yield Fault("bad", f"line {it.line} can be read, and is told {it.text()[:100]!r}")
        elif it.kind not in ("reply", "unavailable"):
            yield Fault("kind", f"line {it.line} is a change, and is told {it.text()[:100]!r}")


def room_is_out(asked, run):
    """A change that isn't made finds the history full. Where too many entries wait to be taken it is tried again, and
    not told."""
    for it in run.answers:
        if it.kind == "unavailable" and (it.words != b"history_full" or len(run.entries) < HISTORY):
            yield Fault("unavailable", f"line {it.line} isn't made for {it.words!r}, with {len(run.entries)} entries")


def stock_is_out(asked, run):
    """Where no target is left for a line, all of its kind were registered before its client's next change."""
    taken = [it for it in run.entries if asked[it.line].registers is not None]
    for client in {it.client for it in run.answers}:
        next_number = float("inf")
        for it in reversed(run.of_client(client)):
            kind = asked[it.line].registers
            if it.kind == "reply":
                next_number = it.number
            elif (it.kind, it.words) == ("bad", b"no_stock") and kind is not None:
                if sum(asked[entry.line].registers == kind and entry.number < next_number for entry in taken) < STOCK:
                    yield Fault("stock", f"line {it.line} finds no target of the kind {kind}, and one was left")


def entries_belong(asked, run):
    """Entries are numbered from 1; each belongs to one change that was answered, by its number, client, line and reply;
    and each such change has one."""
    for place, it in enumerate(run.entries, 1):
        if it.number != place:
            yield Fault("entries", f"entry {it.number} stands at place {place}")
    answered = [(it.number, it.client, it.line, it.words) for it in run.answers if it.kind == "reply"]
    listed = [(it.number, it.client, it.line, it.words) for it in run.entries]
    for number, client, line, words in sorted(set(answered) - set(listed)):
        yield Fault(
            "entries", f"the history hasn't the change {number} of client {client}, line {line}, {words[:60]!r}"
        )
    for number, client, line, words in sorted(set(listed) - set(answered)):
        yield Fault(
            "entries", f"nothing was answered as entry {number} of client {client}, line {line}, {words[:60]!r}, is"
        )
    if len(listed) != len(set(listed)) or len(answered) != len(listed):
        yield Fault("entries", f"{len(answered)} changes were answered, and {len(listed)} are in the history")


def calls_count(asked, run):
    """The calls of each client are numbered from 1, in the order of its lines."""
    calls, lines = {}, {}
    for it in run.entries:
        calls[it.client] = calls.get(it.client, 0) + 1
        if it.call != calls[it.client]:
            yield Fault(
                "calls",
                f"entry {it.number} is call {it.call} of client {it.client}, "
                f"and its call {calls[it.client]} by the history",
            )
        if it.line <= lines.get(it.client, 0):
            yield Fault(
                "calls",
                f"entry {it.number} of line {it.line} comes after line {lines[it.client]} of client {it.client}",
            )
        lines[it.client] = it.line


def heard_at(asked, run, it, seen):
    """Whether a client that had seen so much can have seen what it had before this line: the same, or more by a stamp
    of the client that it heard."""
    heard = asked[it.line].heard
    if it.before == seen:
        return True
    return (
        it.before > seen
        and heard not in (None, it.client)
        and any(it.before == entry.number for entry in run.entries if entry.client == heard)
    )


def seen_grows(asked, run):
    """Nobody's seen becomes shorter; it grows by what is heard before a line, by a read to its front, and by a change
    to its place, which is after all that its client had seen."""
    for client in {it.client for it in run.answers}:
        seen = 0
        for it in run.of_client(client):
            if it.before < seen or it.after < it.before:
                yield Fault(
                    "seen", f"client {client} had seen {seen}, at line {it.line} {it.before}, and then {it.after}"
                )
            elif not heard_at(asked, run, it, seen):
                yield Fault(
                    "heard",
                    f"client {client} had seen {seen}, and {it.before} at line {it.line}, "
                    "which is nothing that it heard",
                )
            if it.kind == "reply" and it.number <= it.before:
                yield Fault(
                    "order", f"line {it.line} makes the change {it.number}, and its client had seen {it.before}"
                )
            if it.after != (it.before if it.kind in ("bad", "unavailable") else it.number):
                yield Fault(
                    "seen",
                    f"client {client} has seen {it.after} after line {it.line}, which was answered {it.text()[:100]!r}",
                )
            if it.after > len(run.entries):
                yield Fault(
                    "seen", f"client {client} has seen {it.after} after line {it.line}, of {len(run.entries)} entries"
                )
            seen = it.after


def all_is_taken_once(asked, run):
    """What was taken and what wasn't is the history with its end, which is put in last, when nothing is taken any
    more."""
    if run.taken + run.untaken != len(run.entries) + 1 or run.untaken < 1:
        yield Fault(
            "end", f"{run.taken} were taken and {run.untaken} weren't, of {len(run.entries)} entries and the end"
        )


# Those that rest on the two about answers; a replay rests on the entries' too.
LATER_RULES = (room_is_out, stock_is_out, entries_belong, calls_count, seen_grows, all_is_taken_once)
