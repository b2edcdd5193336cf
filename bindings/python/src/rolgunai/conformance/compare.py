"""Messages that came beside those that are due: texts with $names, normal forms, and what differs."""

from __future__ import annotations

import json
import re
import uuid
from typing import Any

from rolgunai.conformance.frontend import Message
from rolgunai.conformance.scenario import Parts

Json = Any
UPDATES = ("update", "echo_update")


class Names:
    """The $names of a scenario: ids that it makes up, and those that came from the kernel."""

    def __init__(self) -> None:
        self.values: dict[str, str] = {}

    def made(self, name: str) -> str:
        return self.values.setdefault(name, str(uuid.uuid4()))

    def ids(self) -> set[str]:
        return set(self.values.values())

    def own(self, comm_id: Json) -> bool:
        """Whether an id is one of these, or begins with one, as `$a-$n` does."""
        return isinstance(comm_id, str) and comm_id.startswith(tuple(self.ids()))

    def key(self, key: str) -> str:
        return self.values.get(key[1:], key) if key.startswith("$") else key

    def text(self, template: str, number: int = 0) -> bytes:
        """A text that is sent: $name is an id, $n the message's number, $deep(N) N lists in one another, $text(N) N
        letters."""

        def value(found: re.Match[str]) -> str:
            if found[1] == "n":
                return str(number)
            if found[2] is None:
                return self.made(found[1])
            size = int(found[2])
            return "[" * size + "]" * size if found[1] == "deep" else "x" * size

        return re.sub(r"\$(\w+)(?:\((\d+)\))?", value, template).encode()


def buffers_of(words: list[str] | None) -> list[bytes]:
    """Buffers by their words: hexadecimal bytes, `-` for none at all, N*XX for N times the same."""
    found = []
    for word in words or []:
        times, star, byte = word.partition("*")
        found.append(bytes.fromhex(byte) * int(times) if star else bytes.fromhex(word.strip("-")))
    return found


def with_buffers(state: Json, paths: list[list[Json]], buffers: list[bytes]) -> Json:
    """A state with its buffers at their paths, as words."""
    state = json.loads(json.dumps(state))
    for path, buffer in zip(paths, buffers, strict=False):
        at = state
        try:
            for step in path[:-1]:
                at = at[step]
            at[path[-1]] = f"buffer {buffer.hex()}"
        except (KeyError, IndexError, TypeError):
            state = {"state": state, "a path that leads nowhere": path}
    return state


def normal(message: Message, names: Names) -> Json:
    """What counts of a message: a widget's state with its buffers in it, and of comm_info the scenario's comms."""
    content = message.content if isinstance(message.content, dict) else {}
    if message.kind == "comm_info_reply":
        comms = content.get("comms")
        if not isinstance(comms, dict):
            return [message.kind, {"no comms, but": content}]
        return [message.kind, {key: comms[key].get("target_name") for key in sorted(comms) if names.own(key)}]
    if message.kind == "comm_close":
        return [message.kind, content.get("comm_id")]
    data = content.get("data", {})
    buffers: Json = [buffer.hex() for buffer in message.buffers]
    if isinstance(data, dict) and data.get("method") in UPDATES:
        state = with_buffers(data.get("state", {}), data.get("buffer_paths", []), message.buffers)
        data, buffers = {"method": data["method"], "state": state}, []
    target = [content.get("target_name")] if message.kind == "comm_open" else []
    return [message.kind, content.get("comm_id"), *target, data, buffers]


def fits(wanted: Json, got: Json, names: Names) -> bool:
    """Whether a value has what is wanted: of an object these members, of anything else all. A $name that stands for
    nothing yet stands for what came."""
    if isinstance(wanted, str) and re.fullmatch(r"\$\w+", wanted):
        if wanted[1:] not in names.values and isinstance(got, str) and got not in names.ids():
            names.values[wanted[1:]] = got
        return bool(names.values.get(wanted[1:]) == got)
    if isinstance(wanted, dict):
        pairs = [(wanted[key], names.key(key)) for key in wanted]
        return isinstance(got, dict) and all(key in got and fits(value, got[key], names) for value, key in pairs)
    if isinstance(wanted, list):
        return isinstance(got, list) and len(wanted) == len(got) and all(map(fits, wanted, got, [names] * len(got)))
    return isinstance(wanted, bool) == isinstance(got, bool) and bool(wanted == got)


def message_fits(wanted: Parts, got: Message, names: Names) -> bool:
    before = dict(names.values)
    found = (
        wanted.kind == got.kind
        and fits(json.loads(wanted.content), got.content, names)
        and (wanted.metadata is None or fits(json.loads(wanted.metadata), got.metadata, names))
        and (wanted.buffers is None or buffers_of(wanted.buffers) == got.buffers)
    )
    if not found:
        names.values = before
    return found


def shown(value: Json) -> str:
    """A value in a report, in one line that isn't too long."""
    if isinstance(value, Message):
        buffers = [f"{buffer[:16].hex()}{'..' if len(buffer) > 16 else ''} ({len(buffer)})" for buffer in value.buffers]
        value = [value.channel, value.kind, value.content, value.metadata] + ([buffers] if buffers else [])
    text = value if isinstance(value, str) else json.dumps(value, ensure_ascii=False)
    return text if len(text) < 600 else f"{text[:400]} .. {text[-150:]}"
