"""Where the program's limits are met: its stock, its comms, and the changes of the manager that threads share."""
from .script import Script, close, message

COMMS = 4096
HISTORY = 1_000_000
KINDS = ("echo", "counter", "widget", "widget_echo")
PAD = "x" * 300


def opening(comm, target, rest=""):
    return message("comm_open", f'"comm_id":"{comm}","target_name":"{target}"{rest}')


def comms():
    """The stock's targets, one open more than the limit, a listing, and an open once there is room: a script longer
    than a megabyte."""
    script = Script()
    for kind in KINDS:
        for place in ("one", "two"):
            script.change(f'{{"call":"register","kind":"{kind}","name":"{kind} {place}"}}', "registered")
        script.bad(f'{{"call":"register","kind":"{kind}","name":"{kind} three"}}', "no_stock")
    ids = [f"c{it:04}" for it in range(COMMS)]
    one_more = f"c{COMMS:04}"
    for it in ids:
        script.change(opening(it, "echo one", f',"data":{{"pad":"{PAD}"}}'), "opened")
    script.change(opening(one_more, "echo one", f',"data":{{"pad":"{PAD}"}}'), "refused too_many_comms")
    script.sends("comm_close", one_more)
    script.lists(ids, "echo one", client=3)
    script.change(close(ids[0]), "closed")
    script.bad('{"client":4,' + opening(one_more, "echo two")[1:], "bad_client")
    script.change('{"client":3,' + opening(one_more, "echo two")[1:], "opened", client=3)
    case = script.case("one open more than the limit", end=b"")
    assert len(case.script) > 1_000_000
    return case


def filled():
    """A script of as many changes as the history holds."""
    script = Script()
    script.given = [close("q").encode()] * HISTORY
    script.wanted = [b"reply %d no_comm" % it for it in range(1, HISTORY + 1)]
    script.changes = script.calls[0] = HISTORY
    return script


def changes():
    """Two changes more than the history holds. They tell from outside over which manager a script is played: that of
    one thread, which is played over without an argument, keeps no history and makes them; the one that threads share
    does not, and its reads go on."""
    one, shared = filled(), filled()
    for _ in range(2):
        one.change(close("q"), "no_comm")
        shared.unavailable(close("q"), "history_full")
    for script in (one, shared):
        script.state("no_comm", comm="q")
        script.lists([], "")
    assert one.given == shared.given
    return one.case(
        "more changes than the history holds, which the manager of one thread makes and the shared one doesn't",
        shared=shared,
    )


def cases():
    """One after the other, since the last takes much memory."""
    yield comms()
    yield changes()
