"""Tests of the socket that replies go out by where ipykernel 7 sends them beside the stream that reads it (_shell.py): a
message that comes before a reply is sent is read after it, though zmq doesn't tell of it again.

    test_shell.py PACKAGE    # the folder where the package is built
"""

import asyncio
import select
import sys
import time

sys.path.insert(0, sys.argv[1])

import checks
import zmq
from rolgunai._shell import ReadingSocket, read_on
from tornado.ioloop import IOLoop
from zmq.eventloop.zmqstream import ZMQStream


class Named:
    """An object with some attributes."""

    def __init__(self, **attributes):
        self.__dict__.update(attributes)


async def messages_read(wraps, seconds):
    """The messages that a stream on a ROUTER reads within a time, where a reply is sent beside it amid them."""
    context, read = zmq.Context(), []
    router, dealer = context.socket(zmq.ROUTER), context.socket(zmq.DEALER)
    dealer.connect(f"tcp://127.0.0.1:{router.bind_to_random_port('tcp://127.0.0.1')}")
    stream = ZMQStream(router, IOLoop.current())
    stream.on_recv(read.append)
    replies = wraps(router, stream)
    dealer.send(b"first")
    while not read:
        await asyncio.sleep(0.01)
    dealer.send(b"second")
    select.select([router.FD], [], [], 30)  # it has come, while this thread is at something else: a reply
    replies.send_multipart([read[0][0], b"reply"])
    end = time.monotonic() + seconds
    while len(read) < 2 and time.monotonic() < end:
        await asyncio.sleep(0.01)
    answered = dealer.recv()
    stream.close()
    context.destroy(linger=0)
    return [parts[1] for parts in read], answered


def reads_on():
    stock = asyncio.run(messages_read(lambda socket, stream: socket, 0.5))
    checks.check("zmq's own socket leaves the second unread", stock, ([b"first"], b"reply"))
    ours = asyncio.run(messages_read(ReadingSocket, 30))
    checks.check("with this one it is read", ours, ([b"first", b"second"], b"reply"))


def kernels():
    """Only a kernel's with a thread for its shell is put in the place of another."""
    with zmq.Context() as context, context.socket(zmq.ROUTER) as socket:
        manager = Named(_shell_socket=socket)
        kernel = Named(shell_channel_thread=Named(manager=manager), shell_stream=None)
        for _ in range(2):
            read_on(kernel)
        checks.check("the socket of an ipykernel 7", manager._shell_socket.socket, socket)
        for what, other in [
            ("an ipykernel before 7", Named()),
            ("subshells are off", Named(shell_channel_thread=None)),
            ("another manager", Named(shell_channel_thread=Named(manager=Named()))),
        ]:
            before = repr(vars(other))
            read_on(other)
            checks.check(what, repr(vars(other)), before)


if __name__ == "__main__":
    sys.exit(checks.run(reads_on, kernels))
