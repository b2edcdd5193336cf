"""The JSON that the package writes, beside what json.dumps writes of the same objects, or raises.

test_json.py PACKAGE, the folder where the package is built.
"""

import collections
import enum
import gc
import itertools
import json
import random
import re
import sys
import threading
import tracemalloc

sys.path.insert(0, sys.argv[1])

from checks import check, raised, run
from rolgunai._native import write
from rolgunai._types import NotFiniteError


def dumped(value, default=None):
    """What json.dumps writes in UTF-8, with escapes for lone surrogates, which UTF-8 hasn't."""
    text = json.dumps(value, separators=(",", ":"), ensure_ascii=False, allow_nan=False, default=default)
    return re.sub("[\ud800-\udfff]", lambda found: ascii(found[0])[1:-1], text).encode()


def made(by, *arguments):
    """What a call gives, or its error: of one about an object's type the words before the type's name."""
    try:
        return by(*arguments)
    except Exception as error:
        known = ValueError if type(error) is NotFiniteError else type(error)
        return known, re.sub("(not|type) [a-zA-Z_.]+", "", str(error)).partition(" compliant")[0]


class Colour(enum.IntEnum):
    RED = 1
    DEEP = 2**70


class Flag(enum.IntFlag):
    A = 1
    B = 2


class Word(str, enum.Enum):
    HELLO = 'he"llo'


class Text(str):
    def __str__(self):
        return "another"

    def encode(self, *_):
        return b"another"


class Whole(int):
    def __repr__(self):
        return "another"

    __str__ = __index__ = __int__ = __repr__


class Fraction(float):
    def __repr__(self):
        return "another"

    __float__ = __repr__


class Row(list):
    def __iter__(self):
        return iter(["another"])

    def __len__(self):
        return 1

    def __getitem__(self, place):
        return "another"


class Fixed(tuple):
    __iter__, __len__ = Row.__iter__, Row.__len__


class Told(dict):
    """A dict that says by its own items() what it has."""

    def __init__(self, told, held=1):
        super().__init__(a=held)
        self.told = told

    def items(self):
        return self.told


class Keyless(dict):
    """One that says other keys, which no encoder asks for."""

    def keys(self):
        return ["another"]

    def __iter__(self):
        return iter(["another"])

    def __getitem__(self, key):
        return "another"


Point = collections.namedtuple("Point", "x y")
WORDS = ("", "a", 'a "quoted" \\ text', "\u00e9\u2603\ud55c\U0001f600", "\x00\b\t\n\x0b\f\r\x1f \x7f\x80\u2028\uffff")
LONE = ("\udc80", "a\ud800", "\udbffa\udfff", "\ud83d\ude00 two halves", "\ud55c\udcff\ud7ff\ue000", "\ud800\ud800\n")
INTEGERS = (0, 1, -1, 9, 10, -10, 2**31, 2**63 - 1, 2**63, -(2**63), -(2**63) - 1, 10**19, 10**30, -(10**4000))
FRACTIONS = (0.0, -0.0, 0.1, 1.0, -1.5, 1e16, 1e15, 123456789.123, 1e-5, 1e-4, 5e-324, 1.7976931348623157e308, 2e53)
WRITTEN = {
    "null, true, false": [None, True, False],
    "empty": [{}, [], (), "", {"": {}}, Row(), Fixed(), collections.OrderedDict()],
    "integers": INTEGERS,
    "fractions": FRACTIONS,
    "words": [*WORDS, {word: word for word in WORDS}],
    "lone surrogates": [*LONE, {word: word for word in LONE}],
    "long words": [word * 5000 for word in (*WORDS, *LONE)],
    "keys": {"a": 1, 2: 3, -(2**70): 4, 0.5: 5, 1e22: 6, None: 7, True: 8, False: 9},
    "keys that are one text": {1: "a", "1": "b", False: "c", "false": "d"},
    "enumerations": [Colour.RED, Colour.DEEP, Flag.A | Flag.B, Word.HELLO, {Colour.RED: 1, Word.HELLO: Flag.B}],
    "subclasses": [Text("\u00e9"), Whole(7), Whole(2**70), Fraction(0.5), Row([1, 2]), Fixed((3,)), Point(1, [2])],
    "subclasses as keys": {Text("x"): 1, Whole(7): 2, Fraction(0.5): 3},
    "ordered": collections.OrderedDict([("b", 1), ("a", collections.Counter("aab"))]),
    "a default": collections.defaultdict(list, {"a": [1]}),
    "items of its own": [Told([("b", 1), (2, [3])]), Told([]), Told((("d", ()),)), Keyless(a=5)],
    "the same twice": [[[1]] * 3, {"a": WORDS, "b": WORDS}],
    "deep": [json.loads("[" * 800 + "]" * 800), json.loads('{"a":' * 800 + "1" + "}" * 800)],
    "long": [list(range(10000)), {str(n): n / 7 for n in range(10000)}],
}
NAN, INFINITE = float("nan"), float("inf")
CIRCLE, RING = [1], {"a": {"b": [2]}}
CIRCLE.append([{"x": CIRCLE}])
RING["a"]["b"].append(RING)
REFUSED = {
    "nan": NAN,
    "an infinity in a list": [1, [INFINITE]],
    "one below": {"a": {"b": -INFINITE}},
    "a subclass's": Fraction("nan"),
    "nan as a key": {NAN: 1},
    "an object": {"v": object()},
    "bytes": [b"x"],
    "a set": {1, 2},
    "a complex number": 1j,
    "a key of a tuple": {(1, 2): 3},
    "of bytes": {b"a": 1},
    "of an object": {"a": {object(): 1}},
    "a circle of lists": CIRCLE,
    "of dicts": RING,
    "items that are none": Told(1),
    "that are no pairs": Told([("a", 1, 2)]),
    "nor tuples": Told([["a", 1]]),
    "an integer with more digits than int allows": 10**5000,
}


def values():
    """Each in a list, since a text alone is nothing that json.dumps hasn't a short way for."""
    for name, rows in WRITTEN.items():
        for value in rows if isinstance(rows, (list, tuple)) else [rows]:
            check(f"{name}: {ascii(value)[:80]}", made(write, value), made(dumped, value))
        check(f"{name}, in one", write({"a": [rows]}), dumped({"a": [rows]}))


def refusals():
    for name, value in REFUSED.items():
        for wrapped in (value, [0.5, "\u00e9" * 2000, {"a": value}]):
            wanted = made(dumped, wrapped)
            check(f"not {name}", (made(write, wrapped), type(wanted)), (wanted, tuple))
    for value in (NAN, [INFINITE], {"a": -INFINITE}, {NAN: 1}):
        check(f"{value} is told apart", type(raised(lambda: write(value))), NotFiniteError)
    for arguments in ((), (1, None, 2)):
        check(f"{len(arguments)} arguments", type(raised(lambda: write(*arguments))), TypeError)


def characters():
    for first in range(0, sys.maxunicode + 1, 2048):
        text = "".join(map(chr, range(first, min(first + 2048, sys.maxunicode + 1))))
        check(f"the characters from {first:x} on", write(text), dumped(text))
    at_the_edges = '\x00\x1f "!#\\[]~\x7f\x80\u00e9\udc80'
    for character, before, size in itertools.product(at_the_edges, range(18), (0, 1, 7, 8, 9)):
        text = "x" * before + character + "y" * size
        check(f"{ascii(text)}", write(text), dumped(text))
    for size in (*range(1015, 1030), *range(2040, 2055), *range(4090, 4100), 2**16, 2**20):
        for text in ("x" * size, '"' * size, "\u00e9" * size, "x" * size + "\ud800"):
            check(f"{size} of {ascii(text[0])}", write([text]) == dumped([text]), True)


def anything(rng, depth):
    """A random value, of a kind that json.dumps writes or, rarely, refuses."""
    kind = rng.randrange(14 if depth else 8)
    if kind < 2:
        return "".join(rng.choice(rng.choice((*WORDS, "xyz", *LONE)) or "-") for _ in range(rng.randrange(12)))
    if kind == 2:
        return rng.choice((1, -1)) * rng.getrandbits(rng.choice((3, 31, 63, 64, 65, 200)))
    if kind == 3:
        return rng.choice((rng.random(), rng.uniform(-1e6, 1e6), rng.expovariate(1) * 10.0 ** rng.randrange(-320, 308)))
    if kind == 4:
        return rng.choice((None, True, False, Colour.RED, Whole(3), Fraction(2.5), Text("t"), Word.HELLO))
    if kind == 5:
        return rng.choice((*INTEGERS, *FRACTIONS))
    if kind == 6:
        return rng.choice(((), [], {}, "", 0))
    if kind == 7:
        return rng.choice((NAN, object(), b"x")) if rng.random() < 0.02 else rng.randrange(100)
    items = [anything(rng, depth - 1) for _ in range(rng.randrange(6))]
    if kind < 11:
        return rng.choice((list, tuple, Row, Fixed))(items)
    keys = [anything(rng, 0) if rng.random() < 0.99 else (1,) for _ in items]
    return rng.choice((dict, collections.OrderedDict))((key, item) for key, item in zip(keys, items) if key.__hash__)


def random_values():
    rng = random.Random(7)
    errors = 0
    for number in range(20000):
        value = anything(rng, rng.randrange(6))
        wanted = made(dumped, value)
        errors += isinstance(wanted, tuple)
        check(f"random value {number}: {ascii(value)[:300]}", made(write, value), wanted)
    check("some were refused, and most weren't", 100 < errors < 10000, True)


class Odd:
    def __init__(self, stands_for):
        self.stands_for = stands_for


def stands_for(odd):
    if not isinstance(odd, Odd):
        raise LookupError("no odd one")
    return odd.stands_for() if callable(odd.stands_for) else odd.stands_for


def defaults():
    itself, other = Odd(None), Odd(None)
    itself.stands_for, other.stands_for = itself, [other]
    rows = {
        "a number": Odd(1),
        "more than one": [Odd("\u00e9"), {"a": Odd([Odd(None), Odd({})])}],
        "one of its own": [{"x": object()}],
        "nan": Odd(NAN),
        "what it can't": Odd(object()),
        "an error": Odd(lambda: 1 / 0),
        "itself": itself,
        "itself, in a list": [other],
        "as a key": {Odd("a"): 1},
    }
    for name, value in rows.items():
        check(f"default gives {name}", made(write, value, stands_for), made(dumped, value, stands_for))
    check("no default", made(write, Odd(1), None), made(dumped, Odd(1), None))
    check("none that can be called", made(write, Odd(1), 5), made(dumped, Odd(1), 5))


def changed_meanwhile():
    """What is being written is changed by `default`."""
    for name, change in (("cleared", list.clear), ("longer", lambda row: row.append(9)), ("shorter", list.pop)):
        written = []
        for by in (write, dumped):
            row = []
            row[:] = [Odd(lambda: change(row)), 2, 3]
            written.append(made(by, row, stands_for))
        check(f"a list that is {name}", *written)

    def renamed(rows):
        for key in list(rows)[:1]:
            rows[key + "'"] = rows.pop(key)

    for name, change in (("cleared", dict.clear), ("longer", lambda rows: rows.update(z=1)), ("renamed", renamed)):
        rows = {}
        rows.update((key, Odd(lambda: change(rows))) for key in "abcdefgh")
        error = raised(lambda: write(rows, stands_for))
        check(f"a dict that is {name}", str(error), "dictionary changed size during iteration")


def deep(levels):
    value = []
    for _ in range(levels):
        value = [value] if levels % 2 else {"a": value}
    return value


def endless(odd):
    return [Odd(None)]


def depth():
    """Beyond Python's limit as json.dumps; and where that limit is too high for C's stack, here a small one."""
    check("beyond Python's limit", made(write, deep(5000))[0], RecursionError)
    limit, size = sys.getrecursionlimit(), threading.stack_size(2**19)
    found = []

    def beyond():
        for value in (CIRCLE, RING, deep(900), deep(901), deep(10**4), deep(10**4 + 1)):
            found.append(made(write, value))
        found.append(made(write, Odd(None), endless))

    sys.setrecursionlimit(10**5)
    thread = threading.Thread(target=beyond)
    thread.start()
    thread.join()
    sys.setrecursionlimit(limit)
    threading.stack_size(size)
    told = [each[0] if isinstance(each, tuple) else len(each) for each in found]
    wanted = [ValueError, ValueError, len(dumped(deep(900))), len(dumped(deep(901)))] + [RecursionError] * 3
    check("with a limit that is too high", told, wanted)
    check("and afterwards", write([1]), b"[1]")


def all_rows():
    """Each value that is written or refused, as a call of nothing."""
    for value in (*WRITTEN.values(), *REFUSED.values()):
        yield lambda value=value: made(write, [{"a": value}])
        yield lambda value=value: made(write, [Odd(value), Odd(value), object()], stands_for)


def parts(value, depth=4):
    """A value, and the keys and items in it, but for what all of Python refers to."""
    inner = gc.get_referents(value) if depth and isinstance(value, (dict, list, tuple)) else ()
    yield value
    for item in inner:
        if not isinstance(item, (int, type(None), type)):
            yield from parts(item, depth - 1)


def nothing_is_left():
    """No reference and no memory, also of what ends in an error amid it."""
    tracemalloc.start()
    for number, call in enumerate(all_rows()):
        counted = list(itertools.islice(parts(call.__defaults__[0]), 1000))
        call()
        gc.collect()
        before, held = list(map(sys.getrefcount, counted)), tracemalloc.get_traced_memory()[0]
        for _ in range(50):
            call()
        gc.collect()
        check(f"row {number}: references", list(map(sys.getrefcount, counted)), before)
        check(f"row {number}: memory", tracemalloc.get_traced_memory()[0] - held < 2000 + sys.getsizeof(before), True)
    tracemalloc.stop()


def no_memory():
    """Each allocation fails in turn, and all after it."""
    try:
        import _testcapi
    except ImportError:
        print("skipped: the failing of allocations: this Python has no _testcapi")
        return
    for value in ({"a": ["x" * 3000, 2**70, 0.5]}, "\u00e9" * 10000, "\ud800" * 3000, Told([("b", 1)]), [Odd([1])] * 9):
        wanted, failures = dumped(value, stands_for), 0
        for number in itertools.count():
            got = None
            _testcapi.set_nomemory(number)
            try:
                got = write(value, stands_for)
            except MemoryError:
                failures += 1
            finally:
                _testcapi.remove_mem_hooks()
            if got is not None:
                break
        check(f"{ascii(value)[:30]}: the text, once there is memory", got, wanted)
        check("after some failures", failures > 0, True)


if __name__ == "__main__":
    sys.exit(
        run(values, refusals, characters, random_values, defaults, changed_meanwhile, depth, nothing_is_left, no_memory)
    )
