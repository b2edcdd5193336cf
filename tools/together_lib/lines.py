"""The lines of a script, as far as a run is checked by them: whose each is, and whom its client hears before it."""
import json
from dataclasses import dataclass

CLIENTS = 4


@dataclass(frozen=True)
class Line:
    """A line that isn't blank. `fields` is empty where it can't be read."""

    number: int
    text: bytes
    fields: dict

    @property
    def client(self):
        """Whose it is, where it can be read."""
        return self.fields.get("client") or 0

    @property
    def heard(self):
        """The client that is heard before it, or None."""
        hear = self.fields.get("hear")
        return hear if isinstance(hear, int) and not isinstance(hear, bool) and 0 <= hear < CLIENTS else None


def whole(digits):
    """`-0` isn't whole, and what is very long is no number of a client."""
    return float(digits) if digits == "-0" or len(digits) > 30 else int(digits)


def fields_of(text):
    try:
        read = json.loads(text.decode(), parse_int=whole)
    except (ValueError, RecursionError):
        return {}
    return read if isinstance(read, dict) else {}


def lines_of(script):
    """The lines that aren't blank, numbered as the script has them."""
    texts = script.split(b"\n")
    return [Line(number, text, fields_of(text)) for number, text in enumerate(texts, 1) if text.strip(b" \t\r")]
