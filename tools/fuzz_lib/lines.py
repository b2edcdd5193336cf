"""What a line asks for, by what docs/FORMATS.md says of messages and commands: the tests of a line in their order."""
import re
import uuid

from .json_texts import Number, object_in
from .values import Refused, buffers_of, has_other_number, need, placed

CLIENTS = 4
KINDS = ("echo", "counter", "widget", "widget_echo")
GROUPS = "-".join(f"[0-9a-f]{{{size}}}" for size in (8, 4, 4, 4, 12))
UUID = re.compile(rf"[0-9a-f]{{32}}|{GROUPS}|\{{{GROUPS}\}}|urn:uuid:{GROUPS}", re.ASCII | re.IGNORECASE)


def text_of(members, key, words):
    need(isinstance(members.get(key), str), words)
    return members[key]


def object_of(members, key, words):
    """The object at a key; absent or null is an empty one."""
    found = members.get(key)
    need(found is None or isinstance(found, dict), words)
    return found or {}


def client_of(line):
    given = line.get("client")
    whole = given.whole if isinstance(given, Number) else None
    need(given is None or (whole is not None and 0 <= whole < CLIENTS), "bad_client")
    return whole or 0


class Reader:
    """Reads lines. With `decimals` a number that isn't whole is a value."""

    def __init__(self, decimals):
        self.decimals = decimals

    def asked(self, line):
        """The client, what is asked for, and of what."""
        members = object_in(line)
        need(members is not None, "not_json")
        client = client_of(members)
        return client, *(self.command(members) if "call" in members else self.message(members))

    def taken(self, value):
        need(self.decimals or not has_other_number(value), "not_whole")
        return value

    def body(self, data, line):
        return self.taken(data), buffers_of(line.get("buffers"))

    # ---- messages

    def message(self, line):
        header = line.get("header")
        kind = header.get("msg_type") if isinstance(header, dict) else None
        need(isinstance(kind, str), "no_type")
        need(kind in ("comm_open", "comm_msg", "comm_close", "comm_info_request"), "unknown_type")
        content = object_of(line, "content", "bad_content content")
        if kind == "comm_info_request":
            return self.listing(line, content)
        comm = text_of(content, "comm_id", "bad_content comm_id")
        target = text_of(content, "target_name", "bad_content target_name") if kind == "comm_open" else None
        data = object_of(content, "data", "bad_content data")
        metadata = object_of(line, "metadata", "bad_content metadata")
        if kind == "comm_close":
            buffers_of(line.get("buffers"))
            return "close", comm
        body = self.body(data, line)
        return ("open", comm, target, metadata.get("version"), *body) if target is not None else ("msg", comm, *body)

    def listing(self, line, content):
        target = content.get("target_name")
        need(target is None or isinstance(target, str), "bad_content target_name")
        object_of(line, "metadata", "bad_content metadata")
        buffers_of(line.get("buffers"))
        return "listing", target

    # ---- commands

    def command(self, line):
        call = line["call"]
        calls = ("register", "unregister", "launch", "push", "send", "hang_up", "state")
        need(isinstance(call, str) and call in calls, "unknown_call")
        return call, *getattr(self, call)(line)

    def field(self, line, key):
        return text_of(line, key, f"bad_field {key}")

    def register(self, line):
        kind = self.field(line, "kind")
        need(kind in KINDS, "bad_field kind")
        return kind, self.field(line, "name")

    def unregister(self, line):
        return (self.field(line, "name"),)

    def launch(self, line):
        name, given = self.field(line, "name"), self.field(line, "uuid")
        state = self.state_of(line)
        need(UUID.fullmatch(given), "bad_uuid")
        return str(uuid.UUID(given)), name, state

    def push(self, line):
        return self.field(line, "id"), self.state_of(line)

    def send(self, line):
        comm, data = self.field(line, "id"), object_of(line, "data", "bad_field data")
        self.list_of_buffers(line)
        return comm, *self.body(data, line)

    def hang_up(self, line):
        return (self.field(line, "id"),)

    def state(self, line):
        return (self.field(line, "id"),)

    def list_of_buffers(self, line):
        need(line.get("buffers") is None or isinstance(line["buffers"], list), "bad_field buffers")

    def state_of(self, line):
        """The command's state, with its buffers."""
        state = object_of(line, "state", "bad_field state")
        self.list_of_buffers(line)
        paths = self.taken([self.taken(state), line.get("buffer_paths")])[1]
        return placed(state, paths, buffers_of(line.get("buffers")))
