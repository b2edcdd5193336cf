"""What calls are given and give: numbers as enumerations, outcomes as named tuples, and errors."""

from __future__ import annotations

import enum
from typing import NamedTuple


class Status(enum.IntEnum):
    """Why a call raised an error."""

    OK = 0
    CLOSED = 1
    MEMORY = 2
    BAD_LIMIT = 3
    ALREADY_OPEN = 4
    BUFFER_TOO_SMALL = 5
    EXHAUSTED = 6
    BAD_NAME = 7
    BAD_KIND = 8
    BAD_SIZES = 9
    NOT_JSON = 10
    NO_PART = 11
    NO_TEXT = 12
    BUSY = 13
    AGAIN = 14
    NO_SEAT = 15
    STRANGER = 16


class Kind(enum.IntEnum):
    """The kinds of targets. WIDGET keeps the state of Jupyter widgets, and WIDGET_ECHO repeats to the frontends what a
    frontend's update brought. PLAIN takes every open and message, and hands a message to the kernel in its outcome.
    OPAQUE does so too; neither data nor buffers count there, and they needn't be handed in."""

    WIDGET = 2
    PLAIN = 3
    WIDGET_ECHO = 4
    OPAQUE = 5


class Reply(enum.IntEnum):
    """What a call came to."""

    NONE = 0
    BAD = 1
    COMM_INFO = 2
    REGISTERED = 3
    REPLACED = 4
    OPENED = 5
    ID_IN_USE = 6
    REFUSED = 7
    DELIVERED = 8
    FOR_KERNEL = 9
    FAULT = 10
    NO_COMM = 11
    CLOSED = 12
    UNREGISTERED = 13
    NO_TARGET = 14
    LAUNCHED = 15
    NOT_WIDGET = 16
    STATE = 17
    NO_STATE = 18


class Reason(enum.IntEnum):
    """Why a reply is BAD, REFUSED or FAULT."""

    NONE = 0
    NOT_JSON = 1
    NO_TYPE = 2
    UNKNOWN_TYPE = 3
    BAD_CONTENT = 4
    NOT_WHOLE = 5
    BAD_BUFFER = 6
    BAD_CLIENT = 7
    UNKNOWN_CALL = 8
    BAD_FIELD = 9
    BAD_UUID = 10
    NO_STOCK = 11
    BAD_PATH = 12
    BUFFER_MISSING = 13
    NO_TARGET = 14
    TOO_MANY_COMMS = 15
    WRONG_VERSION = 16
    NO_STATE = 17
    BAD_STATE = 18
    NO_METHOD = 19
    UNKNOWN_METHOD = 20
    OTHER = 21


class Field(enum.IntEnum):
    """The field that BAD_CONTENT and BAD_FIELD speak of, by their number."""

    CONTENT = 0
    COMM_ID = 1
    TARGET_NAME = 2
    DATA = 3
    METADATA = 4
    BUFFERS = 5
    KIND = 6
    NAME = 7
    UUID = 8
    STATE = 9
    ID = 10


class Sent(NamedTuple):
    """A message that is to be sent. A `comm_info_reply` has the comm_id ""; content and metadata are JSON."""

    msg_type: str
    comm_id: str
    content: bytes
    metadata: bytes
    buffers: tuple[bytes, ...]


class Outcome(NamedTuple):
    """What a call came to: its reply, and why it is BAD, REFUSED or FAULT, with the number in that; the comm and the
    target's name that a change is about; what the reply carries, JSON and buffers (FOR_KERNEL, STATE; JSON alone at
    REPLACED and UNREGISTERED: a list of the ids that were closed); and the messages that are to be sent, in their
    order."""

    reply: Reply
    reason: Reason
    number: int
    comm_id: str | None
    target: str | None
    content: bytes | None
    buffers: tuple[bytes, ...]
    sent: tuple[Sent, ...]

    @property
    def words(self) -> str:
        """The reply and its reason in words, as docs/FORMATS.md has them: "refused no_target", "fault bad_path 0"."""
        words = [] if self.reply == Reply.BAD else [self.reply.name.lower()]
        if self.reason != Reason.NONE:
            words.append(self.reason.name.lower())
        if self.reason in (Reason.BAD_CONTENT, Reason.BAD_FIELD):
            words.append(Field(self.number).name.lower())
        elif self.reason in (Reason.BAD_BUFFER, Reason.BAD_PATH, Reason.BUFFER_MISSING, Reason.OTHER):
            words.append(str(self.number))
        return " ".join(words)


class CommError(Exception):
    """A call that wasn't made. The manager is as it was before."""

    def __init__(self, status: Status) -> None:
        super().__init__(f"rolgunai: {status.name.lower()}")
        self.status = status


class ClosedError(CommError):
    """The manager was ended."""


class ArgumentError(CommError, ValueError):
    """What was handed in can't be: a limit, a kind, a name that isn't UTF-8, a text that isn't JSON."""


class OutOfMemoryError(CommError, MemoryError):
    """Out of memory, and nothing has changed: the call may be made again."""


class OutcomeMemoryError(CommError, MemoryError):
    """The call was made, but there was no memory for what it came to: `Manager.outcome`, or `Manager.text` for a line,
    gives that. Made again it would be another call."""


class NotFiniteError(ValueError):
    """Python's data have a nan or an infinity, which are no numbers of JSON."""


_ERRORS: dict[Status, type[CommError]] = {
    Status.CLOSED: ClosedError,
    Status.MEMORY: OutOfMemoryError,
    Status.NO_TEXT: OutcomeMemoryError,
    Status.BAD_LIMIT: ArgumentError,
    Status.BAD_NAME: ArgumentError,
    Status.BAD_KIND: ArgumentError,
    Status.BAD_SIZES: ArgumentError,
    Status.NOT_JSON: ArgumentError,
}


def error_of(status: int) -> CommError:
    """The error that a call with this status raises."""
    found = Status(status)
    return _ERRORS.get(found, CommError)(found)
