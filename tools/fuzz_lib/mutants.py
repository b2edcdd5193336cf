"""Scripts to be played: random ones, the examples, and both with bytes, words and lines changed."""
import random

from .scripts import Scripts

# What is put in the place of something else, or beside it.
PIECES = [
    b"{", b"}", b"[", b"]", b",", b":", b'"', b"\\", b" ", b"\t", b"\r", b"\n", b"\x00", b"\x1f", b"\x7f", b"\x80",
    b"\xc3", b"\xc0\x80", b"\xed\xa0\x80", b"\xff", b"\xf4\x90\x80\x80",
    b"null", b"true", b"false", b"{}", b"[]", b'""', b"[[]]", b'{"":0}', b"nul", b"0", b"-0", b"00", b"-1", b"1.0",
    b"1e2", b"1e400", b"1e-400", b"-", b".", b"e", b"1.00", b"1E+2", b"-0.0", b"0e0", b".5", b"+1", b"0." + b"9" * 40,
    b"18446744073709551615", b"18446744073709551616", b"9223372036854775808", b"-9223372036854775808",
    b"-9223372036854775809",
    b"\\u0000", b"\\u0061", b"\\ud800", b"\\udc00", b"\\ud83d\\ude00", b"\\n", b"\\/", b"\\x", b"\\u12",
    "é".encode(), "😀".encode(), b"\xef\xbb\xbf",
    b'"AQI="', b'"AQ"', b'["x"]', b'["x",0]', b'[["x"]]', b'"buffers":["AQI="]', b'"buffer_paths":[["x"]]',
    b'"state":{"x":1}', b'"client":3', b'"call":"state"', b'"metadata":{"version":"2"}',
    b'"data":', b'"content":', b'"header":', b'"comm_id":"a"', b'"method":"update"', b'"method":"request_state"',
    b"[" * 60, b"]" * 60, b'{"k":' * 60, b"}" * 60, b"9" * 40, b"a" * 300,
]  # fmt: skip


class Mutants:
    """The script of each number, by one seed: random ones of so many lines at most, and examples; or random ones alone,
    as they were made. With `decimals` numbers that aren't whole are frequent."""

    def __init__(self, root, seed, lines, are_unchanged, decimals=False):
        self.seed, self.lines, self.are_unchanged, self.decimals = seed, lines, are_unchanged, decimals
        files = sorted((root / "examples").glob("*.jsonl")) + sorted((root / "examples/decimals").glob("*.jsonl"))
        self.examples = [it.read_bytes() for it in files]

    def random_script(self, number):
        return Scripts(f"{self.seed} {number}", self.decimals).script(self.lines)

    def script(self, number):
        if self.are_unchanged:
            return self.random_script(number)
        chance = random.Random(f"{self.seed} {number}")
        script = self.random_script(number) if chance.random() < 0.6 else chance.choice(self.examples)
        if chance.random() < 0.15:
            script += b"\n" + chance.choice(self.examples)
        for _ in range(chance.choice([0, 1, 1, 2, 4, 16])):
            script = chance.choice(CHANGES)(chance, script)
        return script


def place(chance, script):
    return chance.randrange(len(script) + 1)


def byte_changed(chance, script):
    at = place(chance, script)
    return script[:at] + bytes([chance.randrange(256)]) + script[at + 1 :]


def bit_changed(chance, script):
    at = place(chance, script)
    return script[:at] + bytes([it ^ (1 << chance.randrange(8)) for it in script[at : at + 1]]) + script[at + 1 :]


def piece_put_in(chance, script):
    at = place(chance, script)
    return script[:at] + chance.choice(PIECES) + script[at + chance.choice([0, 0, 1, 2, 4]) :]


def piece_taken_out(chance, script):
    at = place(chance, script)
    return script[:at] + script[at + chance.choice([1, 1, 2, 5, 40]) :]


def part_doubled(chance, script):
    at = place(chance, script)
    part = script[at : at + chance.choice([1, 3, 10, 60])]
    return script[:at] + part * chance.choice([2, 2, 3, 20]) + script[at + len(part) :]


def part_moved(chance, script):
    at, to = place(chance, script), place(chance, script)
    return script[:to] + script[at : at + chance.choice([2, 8, 40])] + script[to:]


def value_changed(chance, script):
    """What stands behind a colon, a comma or a bracket, up to the next, becomes something else."""
    ends = [at for at, byte in enumerate(script) if byte in b":,[]{}"]
    if len(ends) < 2:
        return script
    at = chance.randrange(len(ends) - 1)
    return script[: ends[at] + 1] + chance.choice(PIECES) + script[ends[at + 1] :]


def lines_changed(chance, script):
    """A line is taken out, doubled or put elsewhere."""
    lines = script.split(b"\n")
    line = lines.pop(chance.randrange(len(lines)))
    for _ in range(chance.choice([0, 1, 2, 2])):
        lines.insert(chance.randrange(len(lines) + 1), line)
    return b"\n".join(lines)


def cut(chance, script):
    return script[: place(chance, script)]


CHANGES = [
    byte_changed,
    bit_changed,
    piece_put_in,
    piece_put_in,
    piece_taken_out,
    part_doubled,
    part_moved,
    value_changed,
    value_changed,
    value_changed,
    lines_changed,
    lines_changed,
    cut,
]
