"""The manager of one thread, of a built librolgunai.so, by ctypes: what a line comes to."""
import ctypes
import json
import zlib
from ctypes import byref, c_size_t, c_uint32, c_uint64
from dataclasses import dataclass

OK, BUFFER_TOO_SMALL, NO_PART = 0, 5, 11
NO_COMM, TARGET = 11, 19
TYPE, ID, CONTENT, METADATA, TARGET_NAME, BUFFERS = range(6)
INFO = '{"msg_type":"comm_info_request"}'


@dataclass
class Came:
    status: int
    reply: int = 0
    reason: int = 0
    index: int = 0
    sent: int = 0
    crc: int = 0


class LibraryFault(Exception):
    """The library can't be asked."""


def summed(parts):
    """One number of parts, each with its size, and 0 for one that isn't there."""
    crc = 0
    for part in parts:
        crc = zlib.crc32(b"\0" if part is None else b"\1" + len(part).to_bytes(8, "little") + part, crc)
    return crc


def buffers_of(line, sizes):
    """The buffers of a line: their bytes one after another, and their sizes."""
    numbers = [int(it) for it in sizes.split(",") if it]
    return bytes((line * 7 + k) % 251 for k in range(sum(numbers))), numbers


class Handle:
    """One manager. `played` makes the call of a line."""

    def __init__(self, library, comms, decimals):
        self.library = library
        self.handle = (ctypes.c_void_p * 1)()
        self.out = ctypes.create_string_buffer(1 << 16)
        make = library.rolgunai_new_with_decimals if decimals else library.rolgunai_new
        if make(self.handle, c_size_t(comms)) != OK:
            raise LibraryFault("there is no manager")

    def end(self):
        self.library.rolgunai_free(self.handle)

    def part(self, call, *where):
        size = c_size_t()
        while True:
            status = call(self.handle, *map(c_size_t, where), self.out, c_size_t(len(self.out)), byref(size))
            if status != BUFFER_TOO_SMALL:
                break
            self.out = ctypes.create_string_buffer(2 * size.value)
        if status == NO_PART:
            return None
        if status != OK:
            raise LibraryFault(f"a part gives the status {status}")
        return self.out.raw[: size.value]

    def buffers(self, call, *where):
        """The buffers, and the None behind them."""
        number = BUFFERS
        while True:
            found = self.part(call, *where, number)
            yield found
            if found is None:
                return
            number += 1

    def parts(self, sent):
        """Of the reply, then of each message."""
        reply, message = self.library.rolgunai_copy_reply_part, self.library.rolgunai_copy_sent_part
        yield from (self.part(reply, number) for number in (ID, TARGET_NAME, CONTENT))
        yield from self.buffers(reply)
        for number in range(sent):
            yield from (self.part(message, number, part) for part in (TYPE, ID, CONTENT, METADATA))
            yield from self.buffers(message, number)

    def asked(self, line):
        """The call in the library, and what it takes behind the handle."""
        text, numbers, buffers = [], [], b""
        given = list(line.given)
        if line.call in ("infos", "infos_of"):
            asked = json.dumps({"target_name": given[0]} if given else {})
            given, call = [INFO, "{}", asked, ""], "handle_message"
        else:
            call = {"message": "handle_message"}.get(line.call, line.call)
        kind = [c_uint32(int(given.pop(0)))] if call == "register" else []
        if call in ("handle_message", "launch", "push", "send"):
            buffers, sizes = buffers_of(line.number, given.pop())
            numbers = [buffers, c_size_t(len(buffers)), (c_size_t * (len(sizes) + 1))(*sizes), c_size_t(len(sizes))]
        for it in given:
            text += [it.encode(), c_size_t(len(it.encode()))]
        client = [] if call == "state" else [c_uint32(0)]
        return getattr(self.library, f"rolgunai_{call}"), [*client, *kind, *text, *numbers]

    def played(self, line):
        if line.call == "target":
            return self.target_of(line.given[0])
        reply, sent, reason, index = c_uint32(), c_size_t(), c_uint32(), c_uint64()
        call, given = self.asked(line)
        status = call(self.handle, *given, byref(reply), byref(sent))
        if status != OK:
            return Came(status)
        self.library.rolgunai_last_reason(self.handle, byref(reason), byref(index))
        crc = summed(self.parts(sent.value))
        return Came(OK, reply.value, reason.value, index.value, sent.value, crc)

    def target_of(self, comm):
        """What tells an open comm's target, by the list of comms."""
        reply, sent = c_uint32(), c_size_t()
        given = [it for text in (INFO, "{}", "{}") for it in (text.encode(), c_size_t(len(text)))]
        sizes = (c_size_t * 1)()
        self.library.rolgunai_handle_message(
            self.handle, c_uint32(0), *given, b"", c_size_t(0), sizes, c_size_t(0), byref(reply), byref(sent)
        )
        content = self.part(self.library.rolgunai_copy_sent_part, 0, CONTENT)
        found = json.loads(content)["comms"].get(comm)
        name = found["target_name"].encode() if found else None
        return Came(OK, NO_COMM if name is None else TARGET, crc=summed([None, name, None, None]))
