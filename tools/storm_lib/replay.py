"""The history of a log, played again on the manager of one thread."""
from storm_lib.handle import Handle, LibraryFault
from storm_lib.log import Unreadable, read_log
from storm_lib.rules import LATER_RULES, OK, RULES, Fault, is_change

COMPARED = ("status", "reply", "reason", "index", "sent", "crc")


def differences(line, answer, came):
    """What the line was answered, where the manager of one thread answers otherwise."""
    wrong = [f"{key} {getattr(answer, key)}, not {getattr(came, key)}" for key in COMPARED
             if getattr(answer, key) != getattr(came, key)]
    if wrong:
        kind = "read" if line.is_read else "replay"
        yield Fault(kind, f"line {line.number}, {line.call}, after {answer.seen} changes: {', '.join(wrong)}")


def replayed(script, log, library):
    """Changes in the order of their numbers; behind each what isn't one and comes after so many."""
    order = []
    for line, it in zip(script.lines, log.answers):
        if line.call != "join":
            order.append((it.seen, not is_change(line, it), line.number))
    handle = Handle(library, script.comms, script.decimals)
    try:
        for _, _, number in sorted(order):
            line, it = script.lines[number - 1], log.answers[number - 1]
            yield from differences(line, it, handle.played(line))
    except LibraryFault as fault:
        yield Fault("replay", str(fault))
    finally:
        handle.end()


def checked(script, text, library):
    """What is wrong with a log. What rests on a rule isn't looked at where it doesn't hold."""
    try:
        log = read_log(text)
    except Unreadable as fault:
        return [Fault("form", str(fault))]
    for rules in RULES, LATER_RULES:
        found = [fault for rule in rules for fault in rule(script, log)]
        if found:
            return found
    return list(replayed(script, log, library))
