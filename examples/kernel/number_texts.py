"""JSON with each number as the text that it has: tests and tools compare texts, of which a Python float keeps none."""

import json
from dataclasses import dataclass


@dataclass(frozen=True)
class Number:
    """A number by its text. Two are equal where the texts are."""

    text: str

    def __repr__(self):
        return self.text


def _whole(text):
    # An int has one text, but for -0.
    return Number(text) if text == "-0" else int(text)


def loads(text):
    return json.loads(text, parse_int=_whole, parse_float=Number)


def dumps(value):
    if isinstance(value, Number):
        return value.text
    if isinstance(value, dict):
        return "{" + ",".join(json.dumps(key) + ":" + dumps(item) for key, item in value.items()) + "}"
    if isinstance(value, (list, tuple)):
        return "[" + ",".join(map(dumps, value)) + "]"
    return json.dumps(value)
