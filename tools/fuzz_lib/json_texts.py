"""JSON lines read with the text of each number kept, by what docs/FORMATS.md says of lines, and written as it says of
answers. The standard library tells what is JSON; nothing of Rolgunai is used."""
import json
import math
import re
from dataclasses import dataclass
from json.encoder import encode_basestring, encode_basestring_ascii

from hostile_lib.script import written

DEEPEST = 127  # objects and lists inside one another
LEAST, MOST = -(2**63), 2**64 - 1
WHOLE = re.compile(r"0|-?[1-9][0-9]{0,19}")


@dataclass(frozen=True)
class Number:
    """A JSON number by its text: `1.0` and `1e0` are two."""

    text: str

    @property
    def whole(self):
        """The integer that it is, or None: it has a fraction or an exponent, is `-0`, or lies beyond the range."""
        value = int(self.text) if WHOLE.fullmatch(self.text) else None
        return value if value is not None and LEAST <= value <= MOST else None


class Pairs(list):
    """The members of an object as they stand, those whose key stands again too."""


def refused(name):
    raise ValueError(f"{name} is no JSON")


def checked_text(text):
    """The text, which has no half of a surrogate pair."""
    text.encode()
    return text


def checked(value, depth=0):
    """The value as a dict, a list, a text and so on, where it nests at most so deep, and floats hold its numbers."""
    if isinstance(value, list) and depth == DEEPEST:
        raise ValueError("it nests too deep")
    if isinstance(value, Pairs):
        return {checked_text(key): checked(it, depth + 1) for key, it in value}
    if isinstance(value, list):
        return [checked(it, depth + 1) for it in value]
    if isinstance(value, Number) and not math.isfinite(float(value.text)):
        raise ValueError("no float holds it")
    return checked_text(value) if isinstance(value, str) else value


def object_in(line):
    """The JSON object that the bytes of a line are, or None."""
    try:
        value = checked(
            json.loads(
                line.decode(), parse_int=Number, parse_float=Number, parse_constant=refused, object_pairs_hook=Pairs
            )
        )
    except (ValueError, RecursionError):
        return None
    return value if isinstance(value, dict) else None


def compact(value):
    """The JSON text of a value, without blanks, with the keys in order, and numbers by their texts."""
    if isinstance(value, dict):
        return "{" + ",".join(f"{written(key)}:{compact(value[key])}" for key in sorted(value)) + "}"
    if isinstance(value, list):
        return "[" + ",".join(map(compact, value)) + "]"
    if isinstance(value, Number):
        return value.text
    return written(value) if isinstance(value, str) else json.dumps(value)


def loose(value, is_ascii):
    """The JSON text of a line, with blanks and escapes as the standard library has them; a Number stands by its text,
    which may be no JSON."""
    quoted = encode_basestring_ascii if is_ascii else encode_basestring
    if isinstance(value, dict):
        return "{" + ", ".join(f"{quoted(key)}: {loose(it, is_ascii)}" for key, it in value.items()) + "}"
    if isinstance(value, list):
        return "[" + ", ".join(loose(it, is_ascii) for it in value) + "]"
    if isinstance(value, Number):
        return value.text
    return quoted(value) if isinstance(value, str) else json.dumps(value)
