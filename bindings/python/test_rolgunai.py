"""The calls from Python: what each gives, why one is refused, what may be handed in, and what raises an error.

test_rolgunai.py PACKAGE, the folder where the package is built.
"""

import array
import ctypes
import doctest
import sys

sys.path.insert(0, sys.argv[1])
import rolgunai
from checks import check, raised, run
from rolgunai import ArgumentError, ClosedError, Kind, Manager, Outcome, Reason, Reply, Sent, Status

ONE, TWO, THREE = (f"00000000-0000-0000-0000-00000000000{n}" for n in (1, 2, 3))
CUT = b"\xc3"  # the beginning of a character in UTF-8
OPEN, MSG, CLOSE, INFO = (b'{"msg_type":"comm_%s"}' % word for word in (b"open", b"msg", b"close", b"info_request"))


def came(reply, *sent, reason=Reason.NONE, number=0, about=(None, None), content=None, buffers=()):
    return Outcome(reply, reason, number, *about, content, tuple(buffers), sent)


def bad(reason, number=0, *sent):
    return came(Reply.BAD, *sent, reason=reason, number=int(number))


def an_open(comm_id, state, *buffers, name="w"):
    content = b'{"comm_id":"%s","data":%s,"target_name":"%s"}' % (comm_id.encode(), state, name.encode())
    return Sent("comm_open", comm_id, content, b'{"version":"2.1.0"}', buffers)


def a_msg(comm_id, data, *buffers):
    return Sent("comm_msg", comm_id, b'{"comm_id":"%s","data":%s}' % (comm_id.encode(), data), b"{}", buffers)


def a_close(comm_id):
    return Sent("comm_close", comm_id, b'{"comm_id":"%s","data":{}}' % comm_id.encode(), b"{}", ())


# The kernel's calls in a row: what is called, with what, and what comes of it, an Outcome or the status of an error.
PATHS = b'[["b"],["a"]]'
CALLS = [
    ("register", (Kind.WIDGET, "w"), came(Reply.REGISTERED, about=(None, "w"))),
    ("register", (3, "p é"), came(Reply.REGISTERED, about=(None, "p é"))),
    ("register", (Kind.WIDGET_ECHO, b"e"), came(Reply.REGISTERED, about=(None, "e"))),
    ("register", (Kind.OPAQUE, "o"), came(Reply.REGISTERED, about=(None, "o"))),
    ("register", (0, "x"), Status.BAD_KIND),
    ("register", (Kind.PLAIN, CUT), Status.BAD_NAME),
    (
        "launch",
        ("w", ONE, b'{"v":1}', PATHS, [b"x", b"yz"]),
        came(
            Reply.LAUNCHED,
            an_open(ONE, b'{"buffer_paths":[["a"],["b"]],"state":{"v":1}}', b"yz", b"x"),
            about=(ONE, "w"),
        ),
    ),
    ("launch", ("w", ONE, "{}"), came(Reply.ID_IN_USE, about=(ONE, "w"))),
    (
        "launch",
        ("w", TWO.replace("-", ""), "null"),
        came(Reply.LAUNCHED, an_open(TWO, b'{"buffer_paths":[],"state":{}}'), about=(TWO, "w")),
    ),
    ("message", (OPEN, b"{}", '{"comm_id":"m","target_name":"p é"}'), came(Reply.OPENED, about=("m", "p é"))),
    (
        "launch",
        ("w", THREE, b"{}"),
        came(Reply.REFUSED, reason=Reason.TOO_MANY_COMMS, about=(THREE, "w")),
    ),
    ("launch", ("none", THREE, b"{}"), came(Reply.NO_TARGET, about=(THREE, "none"))),
    ("launch", ("p é", THREE, b"{}"), came(Reply.NOT_WIDGET, about=(THREE, "p é"))),
    ("launch", ("w", "one", b"{}"), bad(Reason.BAD_UUID)),
    ("launch", ("w", THREE, b"[]"), bad(Reason.BAD_FIELD, rolgunai.Field.STATE)),
    ("launch", ("w", THREE, b'{"v":0.5}'), bad(Reason.NOT_WHOLE)),
    ("launch", (CUT, CUT, b"{"), Status.BAD_NAME),
    ("launch", ("w", THREE, b"{"), Status.NOT_JSON),
    ("push", (ONE, b'{"v":1}', b'[["a"],["v","x"]]', [b"x", b"yz"]), bad(Reason.BAD_PATH, 1)),
    ("push", (ONE, b"{}", b'[["a"],["b"]]', [b"x"]), bad(Reason.BUFFER_MISSING, 1)),
    ("push", (ONE, b"{}", b"["), Status.NOT_JSON),
    (
        "push",
        (ONE, b'{"v":[2]}', b'[["b"]]', [b"abc"]),
        came(
            Reply.DELIVERED,
            a_msg(ONE, b'{"buffer_paths":[["b"]],"method":"update","state":{"v":[2]}}', b"abc"),
            about=(ONE, "w"),
        ),
    ),
    (
        "state",
        (ONE,),
        came(Reply.STATE, content=b'{"buffer_paths":[["a"],["b"]],"state":{"v":[2]}}', buffers=[b"yz", b"abc"]),
    ),
    ("state", ("m",), came(Reply.NO_STATE)),
    ("state", ("nobody",), came(Reply.NO_COMM)),
    ("state", (CUT,), Status.BAD_NAME),
    ("push", ("m", b"{}"), came(Reply.NOT_WIDGET, about=("m", "p é"))),
    ("push", ("nobody", b"{}"), came(Reply.NO_COMM, about=("nobody", None))),
    (
        "send",
        ("m", '{"y":"é"}', [b"xyz"]),
        came(Reply.DELIVERED, a_msg("m", '{"y":"é"}'.encode(), b"xyz"), about=("m", "p é")),
    ),
    ("send", ("m", b'"y"'), bad(Reason.BAD_FIELD, rolgunai.Field.DATA)),
    ("send", ("m", b""), Status.NOT_JSON),
    (
        "message",
        (MSG, b"{}", b'{"comm_id":"m","data":{"x":[1]}}', [b"\x00\xff", b""]),
        came(Reply.FOR_KERNEL, about=("m", "p é"), content=b'{"x":[1]}', buffers=[b"\x00\xff", b""]),
    ),
    (
        "message",
        (INFO, b"{}", '{"target_name":"p é"}'),
        came(
            Reply.COMM_INFO,
            Sent("comm_info_reply", "", '{"comms":{"m":{"target_name":"p é"}},"status":"ok"}'.encode(), b"{}", ()),
        ),
    ),
    ("message", (MSG, b"{}", b'{"comm_id":"nobody"}'), came(Reply.NO_COMM, about=("nobody", None))),
    (
        "message",
        (MSG, b"{}", b'{"comm_id":"%s","data":{}}' % ONE.encode()),
        came(Reply.FAULT, reason=Reason.NO_METHOD, about=(ONE, "w")),
    ),
    ("message", (OPEN, b"{}", b'{"comm_id":"q"}'), bad(Reason.BAD_CONTENT, rolgunai.Field.TARGET_NAME, a_close("q"))),
    (
        "message",
        (OPEN, b"{}", b'{"comm_id":"z","target_name":"none"}'),
        came(Reply.REFUSED, a_close("z"), reason=Reason.NO_TARGET, about=("z", "none")),
    ),
    ("message", (OPEN, b"{}", b'{"comm_id":"m","target_name":"w"}'), came(Reply.ID_IN_USE, about=("m", "w"))),
    ("message", (b"{}", b"{}", b"{}"), bad(Reason.NO_TYPE)),
    ("message", (b'{"msg_type":"x"}', b"{}", b"{}"), bad(Reason.UNKNOWN_TYPE)),
    ("message", (MSG, b"{", b"{}"), Status.NOT_JSON),
    ("message", (MSG, b"{}", b"\xff"), Status.NOT_JSON),
    ("close", (TWO,), came(Reply.CLOSED, a_close(TWO), about=(TWO, "w"))),
    ("close", (TWO,), came(Reply.NO_COMM, about=(TWO, None))),
    ("close", (CUT,), Status.BAD_NAME),
    ("message", (OPEN, b"{}", b'{"comm_id":"f","target_name":"o","data":0.5}'), came(Reply.OPENED, about=("f", "o"))),
    (
        "message",
        (MSG, b"7", b'{"comm_id":"f","data":"x"}', [b"y"]),
        came(Reply.FOR_KERNEL, about=("f", "o"), content=b"{}"),
    ),
    ("message", (CLOSE, b"{}", b'{"comm_id":"f","data":[]}'), came(Reply.CLOSED, about=("f", "o"))),
    ("register", (Kind.PLAIN, "p é"), came(Reply.REPLACED, a_close("m"), about=(None, "p é"), content=b'["m"]')),
    ("unregister", ("w",), came(Reply.UNREGISTERED, a_close(ONE), about=(None, "w"), content=b'["%s"]' % ONE.encode())),
    ("unregister", ("w",), came(Reply.NO_TARGET, about=(None, "w"))),
    ("unregister", (CUT,), Status.BAD_NAME),
]


def made(manager, name, arguments, **named):
    """What comes of a call: its Outcome, or the status of the error that it raises."""
    try:
        return getattr(manager, name)(*arguments, **named)
    except rolgunai.CommError as error:
        return error.status


def calls():
    with Manager(comms=3) as manager:
        replies = {Reply.NONE}
        for number, (name, arguments, wanted) in enumerate(CALLS):
            before = manager.outcome()
            got = made(manager, name, arguments)
            what = f"call {number}, {name}{arguments}"
            check(what, got, wanted)
            check(f"{what}: the outcome again", manager.outcome(), wanted if isinstance(wanted, Outcome) else before)
            if isinstance(wanted, Outcome):
                replies.add(wanted.reply)
                check(f"{what}: types", [type(part) for part in got], [type(part) for part in wanted])
    check("each reply is among the calls", replies, set(Reply))
    for name, arguments, _ in CALLS:
        check(f"{name} after the end", made(manager, name, arguments), Status.CLOSED)


# What a refusal is in words, as docs/FORMATS.md has them.
WORDS = [
    ("message", (MSG, b"{}", b'{"comm_id":3}'), "bad_content comm_id"),
    ("message", (MSG, b"{}", b'{"comm_id":"m","data":1}'), "bad_content data"),
    ("message", (OPEN, b"{}", b'{"comm_id":"x","target_name":"w","data":{"state":{}}}'), "refused wrong_version"),
    ("message", (OPEN, b'{"version":"2"}', b'{"comm_id":"x","target_name":"w"}'), "refused no_state"),
    ("message", (MSG, b"{}", b'{"comm_id":"%s","data":{"method":"x"}}' % ONE.encode()), "fault unknown_method"),
    (
        "message",
        (MSG, b"{}", b'{"comm_id":"%s","data":{"method":"update","state":[]}}' % ONE.encode()),
        "fault bad_state",
    ),
    ("push", (ONE, b"{}", b"[3]"), "bad_path 0"),
    ("push", (ONE, b"{}", b'[["a"]]'), "buffer_missing 0"),
    ("close", ("nobody",), "no_comm"),
]


def words():
    with Manager() as manager:
        manager.register(Kind.WIDGET, "w")
        manager.launch("w", ONE, b"{}")
        for name, arguments, wanted in WORDS:
            got = getattr(manager, name)(*arguments)
            check(f"{name}{arguments} in words", got.words, wanted)
            said = b"%s\n" % wanted.encode()
            check(f"{name}{arguments} in a text", manager.text().split(b"\n")[0][-len(wanted) :] + b"\n", said)


def clients():
    with Manager() as manager:
        for name, arguments, reply in (
            ("register", (Kind.PLAIN, "p"), Reply.REGISTERED),
            ("message", (OPEN, b"{}", b'{"comm_id":"a","target_name":"p"}'), Reply.OPENED),
            ("send", ("a", b"{}"), Reply.DELIVERED),
            ("launch", ("none", ONE, b"{}"), Reply.NO_TARGET),
            ("push", ("a", b"{}"), Reply.NOT_WIDGET),
            ("close", ("a",), Reply.CLOSED),
            ("unregister", ("p",), Reply.UNREGISTERED),
        ):
            check(f"{name} by a fifth client", made(manager, name, arguments, client=4).words, "bad_client")
            check(f"{name} by the fourth client", made(manager, name, arguments, client=3).reply, reply)


def lines():
    with Manager() as manager:
        check("a line", manager.line('{"call":"register","kind":"echo","name":"e"}'), b"reply 1 registered\n")
        check("its outcome", manager.outcome(), came(Reply.REGISTERED, about=(None, "e")))
        check("a blank line", (manager.line(b" "), manager.outcome()), (b"", came(Reply.NONE)))
        manager.line(b'{"header":{"msg_type":"comm_open"},"content":{"comm_id":"a","target_name":"e"}}')
        for size in (10, 4000, 5000, 100000):
            key = b"x" * size
            line = b'{"header":{"msg_type":"comm_msg"},"content":{"comm_id":"a","data":{"k":"%s"}}}' % key
            said = manager.line(line)
            check(f"a line of {size}", (said.count(key), said, said[:6]), (1, manager.text(), b"reply "))
            check(f"the outcome of {size}", manager.outcome().sent, (a_msg("a", b'{"k":"%s"}' % key),))
        check("a bad line", (manager.line(b"{"), manager.outcome()), (b"bad 8 not_json\n", bad(Reason.NOT_JSON)))


BUFFERS = [
    ("bytes", b"abc", b"abc"),
    ("a bytearray", bytearray(b"abc"), b"abc"),
    ("a memoryview", memoryview(b"abc"), b"abc"),
    ("a slice of one", memoryview(b"abcdef")[2:5], b"cde"),
    ("each second byte", memoryview(b"abcdef")[::2], b"ace"),
    ("backwards", memoryview(b"abc")[::-1], b"cba"),
    ("numbers", array.array("H", [0x4142, 0x4344]), array.array("H", [0x4142, 0x4344]).tobytes()),
    ("a table", memoryview(b"abcdef").cast("B", (2, 3)), b"abcdef"),
    ("what ctypes has", (ctypes.c_char * 3)(b"a", b"b", b"c"), b"abc"),
    ("nothing", b"", b""),
    ("nothing of a view", memoryview(b"abc")[3:], b""),
]
SIZES = [1, 4095, 4096, 4097, 65535, 65536, 2**20 - 1, 2**20, 2**20 + 1, 2**24]


def buffers():
    with Manager() as manager:
        manager.register(Kind.PLAIN, "p")
        manager.message(OPEN, b"{}", b'{"comm_id":"a","target_name":"p"}')

        def back(what, handed, wanted):
            heard = manager.message(MSG, b"{}", b'{"comm_id":"a"}', handed)
            check(f"{what} from a frontend", heard.buffers, tuple(wanted))
            sent = manager.send("a", b"{}", handed).sent[0]
            check(
                f"{what} from the kernel",
                (sent.buffers, {type(it) for it in sent.buffers} - {bytes}),
                (tuple(wanted), set()),
            )

        for what, buffer, wanted in BUFFERS:
            back(what, [buffer], [wanted])
            back(f"{what} beside another", (b"-", buffer), [b"-", wanted])
        back("all kinds", [row[1] for row in BUFFERS], [row[2] for row in BUFFERS])
        for size in SIZES:
            long = bytes(range(256)) * (size // 256) + b"z" * (size % 256)
            back(f"{size} bytes", [long], [long])
            back(f"{size} bytes and others", [b"a", long, b"", memoryview(long)], [b"a", long, b"", long])
        for count in range(40):
            back(f"{count} buffers", [b"%d" % n for n in range(count)], [b"%d" % n for n in range(count)])
        check("a generator", manager.send("a", b"{}", (b"x" * n for n in (1, 2))).sent[0].buffers, (b"x", b"xx"))
        check("None", manager.send("a", b"{}", None).sent[0].buffers, ())


def texts():
    content = '{"comm_id":"a","data":{"k":"é€😀"}}'
    with Manager() as manager:
        manager.register(Kind.PLAIN, "p")
        manager.message(OPEN, b"{}", b'{"comm_id":"a","target_name":"p"}')
        encoded = content.encode()
        for what, given in (
            ("a str", content),
            ("bytes", encoded),
            ("a bytearray", bytearray(encoded)),
            ("a memoryview", memoryview(encoded)),
            ("a slice", memoryview(b"-" + encoded)[1:]),
        ):
            check(what, manager.message(MSG, "{}", given).content, '{"k":"é€😀"}'.encode())
        for size in (4000, 5000, 70000, 2**20, 3 * 2**20):
            long = b'{"k":"%s"}' % (b"x" * size)
            heard = manager.message(MSG, b"{}", b'{"comm_id":"a","data":%s}' % long)
            check(f"a content of {size}", heard.content == long, True)
        name = "n" * 100000
        check("a long name", manager.register(Kind.PLAIN, name).target == name, True)


# What isn't a call at all.
WRONG = [
    ("message", (MSG, b"{}"), {}, TypeError),
    ("message", (MSG, b"{}", b"{}", [], 1), {}, TypeError),
    ("message", (MSG, b"{}", 3), {}, TypeError),
    ("message", (MSG, b"{}", None), {}, TypeError),
    ("message", (MSG, b"{}", "\ud800"), {}, UnicodeEncodeError),
    ("message", (MSG, b"{}", b"{}"), {"buffer": []}, TypeError),
    ("message", (MSG, b"{}", b"{}"), {"header": MSG}, TypeError),
    ("message", (MSG, b"{}", b"{}", b"abc"), {}, TypeError),
    ("message", (MSG, b"{}", b"{}", ["abc"]), {}, TypeError),
    ("message", (MSG, b"{}", b"{}", 5), {}, TypeError),
    ("message", (MSG, b"{}", b"{}"), {"client": -1}, OverflowError),
    ("message", (MSG, b"{}", b"{}"), {"client": 2**32}, OverflowError),
    ("message", (MSG, b"{}", b"{}"), {"client": "0"}, TypeError),
    ("register", ("w", Kind.WIDGET), {}, TypeError),
    ("register", (2**64, "w"), {}, OverflowError),
    ("state", ("a",), {"client": 0}, TypeError),
    ("line", (3,), {}, TypeError),
    ("line", (), {}, TypeError),
]


def errors():
    with Manager() as manager:
        for name, arguments, named, wanted in WRONG:
            check(
                f"{name}{arguments}{named}", type(raised(lambda: getattr(manager, name)(*arguments, **named))), wanted
            )
        by_name = manager.register(name="w", client=0, kind=Kind.WIDGET)
        check("arguments by their names", by_name.reply, Reply.REGISTERED)
        check("a second beginning", raised(manager.__init__).status, Status.ALREADY_OPEN)
        check("which changes nothing", manager.register(Kind.WIDGET, "w").reply, Reply.REPLACED)
    for limit in (0, -1, 1048577, 2**70, -(2**70)):
        error = raised(lambda: Manager(comms=limit))
        check(f"a limit of {limit}", (type(error), error.status), (ArgumentError, Status.BAD_LIMIT))
        check(f"{limit} is a wrong value", isinstance(error, ValueError), True)
    check("a limit that is no number", type(raised(lambda: Manager(comms="1"))), TypeError)
    check("a limit by place", type(raised(lambda: Manager(1))), TypeError)
    check("the end again", type(raised(manager.end)), ClosedError)
    never = Manager.__new__(Manager)
    check("no beginning", [type(raised(call)) for call in (never.text, never.outcome, never.end)], [ClosedError] * 3)
    with manager:
        pass  # it has ended, which is no error here


def kinds():
    class Named(Manager):
        """A subclass, with attributes of its own."""

        def __init__(self, name, **limits):
            super().__init__(**limits)
            self.name = name

    manager = Named("x", comms=1, decimals=True)
    check("a subclass", (manager.register(Kind.WIDGET, "w").reply, manager.name), (Reply.REGISTERED, "x"))
    launched = manager.launch("w", ONE, b'{"v":1.50}')
    check("decimals", b'{"v":1.50}' in launched.sent[0].content, True)
    check("the examples in the documentation", doctest.testmod(rolgunai).failed, 0)
    check("as a tuple", launched._replace(sent=()), came(Reply.LAUNCHED, about=(ONE, "w")))


if __name__ == "__main__":
    sys.exit(run(calls, words, clients, lines, buffers, texts, errors, kinds))
