"""JSON between a kernel's code and the manager: it is written in C, and read where Python needs it."""

from __future__ import annotations

import json
import math
from collections.abc import Callable
from typing import Any

from rolgunai._native import write

HEADERS = {
    kind: b'{"msg_type":"%s"}' % kind.encode() for kind in ("comm_open", "comm_msg", "comm_close", "comm_info_request")
}

_scan: Any = getattr(json.JSONDecoder(), "scan_once")  # which typeshed has not


def read(text: bytes | str) -> Any:
    """Reads JSON as json.loads does, which looks for blanks around a text first."""
    words = text if isinstance(text, str) else text.decode()
    try:
        value, end = _scan(words, 0)
    except StopIteration:
        return json.loads(words)
    return value if end == len(words) else json.loads(words)


def cleaned(value: Any) -> Any:
    """A value with what JSON hasn't made into what it has, as jupyter_client makes it: `nan` and the infinities, and
    each key, are texts. Raises ValueError where two keys are one text."""
    if isinstance(value, float) and not math.isfinite(value):
        return float.__repr__(value)
    if isinstance(value, dict):
        named = {str(key): cleaned(item) for key, item in value.items()}
        if len(named) != len(value):
            raise ValueError("two keys are one text")
        return named
    return [cleaned(item) for item in value] if isinstance(value, (list, tuple)) else value


def packer(
    default: Callable[[Any], Any] | None = None, clean: Callable[[Any], Any] = cleaned
) -> Callable[[Any], bytes]:
    """What writes JSON, without blanks. What json.dumps refuses, and `default` too, is handed to `clean` first, whose
    errors are raised. Raises RecursionError for data that are in themselves or more than 1,000 levels deep."""

    def pack(value: Any) -> bytes:
        try:
            return write(value, default)
        except (TypeError, ValueError):
            return write(clean(value), default)

    return pack
