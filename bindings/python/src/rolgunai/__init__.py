"""Rolgunai, the proved comm manager, in a Python process.

A kernel hands each message of a frontend to `Manager.message`, as it came from the wire: three JSON texts and binary
buffers. What its own widgets do it tells by `launch`, `push`, `send` and `close`. Each call gives its Outcome: the
reply, what it is about, and the messages that are to be sent.

    >>> from rolgunai import Kind, Manager, Reply
    >>> manager = Manager(decimals=True)
    >>> manager.register(Kind.WIDGET_ECHO, "jupyter.widget").reply.name
    'REGISTERED'

A widget of the kernel: its `comm_open` is to be sent to the frontends.

    >>> slider = "00000000-0000-0000-0000-000000000001"
    >>> launched = manager.launch("jupyter.widget", slider, b'{"value":1.5}')
    >>> [(message.msg_type, message.comm_id == slider) for message in launched.sent]
    [('comm_open', True)]

A frontend moves it, and another one asks where it is:

    >>> header, metadata = b'{"msg_type":"comm_msg"}', b"{}"
    >>> update = b'{"comm_id":"%s","data":{"method":"update","state":{"value":2.5}}}' % slider.encode()
    >>> manager.message(header, metadata, update).reply.name
    'DELIVERED'
    >>> request = b'{"comm_id":"%s","data":{"method":"request_state"}}' % slider.encode()
    >>> print(manager.message(header, metadata, request).sent[0].content.decode().split('"data":')[1])
    {"buffer_paths":[],"method":"update","state":{"value":2.5}}}

A comm of the kernel's own, with a binary buffer: the message comes to the kernel with the comm and the target that it
is about, and the kernel answers by `send`.

    >>> manager.register(Kind.PLAIN, "my.target").reply.name
    'REGISTERED'
    >>> opened = manager.message(b'{"msg_type":"comm_open"}', b"{}", b'{"comm_id":"a","target_name":"my.target"}')
    >>> came = manager.message(header, metadata, b'{"comm_id":"a","data":{"k":1}}', [b"buffer"])
    >>> if came.reply == Reply.FOR_KERNEL:
    ...     print(came.comm_id, came.target, came.content, came.buffers)
    a my.target b'{"k":1}' (b'buffer',)
    >>> manager.send(came.comm_id, b'{"heard":true}').sent[0].content
    b'{"comm_id":"a","data":{"heard":true}}'

A refusal is no error, but a reply with its reason; an error is a call that wasn't made.

    >>> manager.message(b'{"msg_type":"comm_open"}', b"{}", b'{"comm_id":"b","target_name":"none"}').words
    'refused no_target'
    >>> manager.message(header, metadata, b"{")
    Traceback (most recent call last):
    rolgunai.ArgumentError: rolgunai: not_json
    >>> manager.end()

Threads may share a manager: each call is whole, and waits for the one that is under way. The GIL is let go where it
takes long. A `__del__` may call at any time, also where the garbage collector runs it amid a call of the same thread:
its call is then a whole one of its own, before or after.

A `SharedManager` has the same calls but for `line`, `text` and the numbers of clients, and is for many threads: each
has a client of its own, whose reads wait for nobody, and an outcome of its own.

    >>> from rolgunai import SharedManager
    >>> shared = SharedManager(decimals=True)
    >>> shared.register(Kind.OPAQUE, "t").reply.name
    'REGISTERED'
    >>> shared.message(b'{"msg_type":"comm_open"}', b"{}", b'{"comm_id":"a","target_name":"t"}').reply.name
    'OPENED'
    >>> shared.target("a"), shared.target("b"), shared.seen()
    ('t', None, 2)

Changes have numbers, which `seen` tells, and their messages are to go out in the order of these. Whoever sends what
calls give has a lock over the call, and a line of what is to be sent: `rolgunai._native.Turns`, which the hub has.
"""

from rolgunai._native import Manager, SharedManager
from rolgunai._types import (
    ArgumentError,
    ClosedError,
    CommError,
    Field,
    Kind,
    OutcomeMemoryError,
    OutOfMemoryError,
    Outcome,
    Reason,
    Reply,
    Sent,
    Status,
)

__all__ = [
    "ArgumentError",
    "ClosedError",
    "CommError",
    "Field",
    "Kind",
    "Manager",
    "OutOfMemoryError",
    "Outcome",
    "OutcomeMemoryError",
    "Reason",
    "Reply",
    "Sent",
    "SharedManager",
    "Status",
]

for _name in __all__:
    if not _name.endswith("Manager"):
        globals()[_name].__module__ = "rolgunai"
