"""What the one-thread manager says of a history, and of reads at their fronts, beside what was written."""
from together_lib.rules import READS, Fault


def difference(given, wanted):
    """Both, from a little before the place where they differ."""
    at = next((it for it, pair in enumerate(zip(given, wanted)) if pair[0] != pair[1]), min(len(given), len(wanted)))
    start = max(0, at - 40)
    return f"{given[start : at + 60]!r} in the place of {wanted[start : at + 60]!r}"


def in_order(asked, run):
    """The lines of the history, and each read after as many changes as its front has: what was written, and the
    line."""
    reads = {}
    for it in run.answers:
        if it.kind in READS:
            reads.setdefault(it.number, []).append(it)
    played = [(it, asked[it.line].line) for it in reads.get(0, [])]
    for entry in run.entries:
        played.append((entry, asked[entry.line].line))
        played += [(it, asked[it.line].line) for it in reads.get(entry.number, [])]
    return played


def entry_faults(entry, told):
    if (told.kind, told.number) != ("reply", entry.number):
        yield Fault(
            "replay",
            f"entry {entry.number} of line {entry.line}: the one-thread manager tells "
            f"{told.kind} {told.number} {told.words[:100]!r}",
        )
        return
    if told.words != entry.words:
        yield Fault(
            "replay", f"the reply of entry {entry.number}, line {entry.line}: {difference(entry.words, told.words)}"
        )
    if told.outs != entry.outs:
        yield Fault(
            "replay",
            f"what entry {entry.number}, line {entry.line}, sends: "
            f"{difference(b' '.join(entry.outs), b' '.join(told.outs))}",
        )


def replayed(asked, run, driver):
    """Every reply, message and read is the one-thread manager's, at its place."""
    played = in_order(asked, run)
    for (given, line), told in zip(played, driver.played([line for _, line in played])):
        if hasattr(given, "call"):
            yield from entry_faults(given, told)
        elif (given.kind, given.number, given.words) != (told.kind, told.number, told.words):
            what = f"{told.kind} {told.number}: {difference(given.words, told.words)}"
            yield Fault("read", f"line {line.number} at the front {given.number}: the one-thread manager's is {what}")
