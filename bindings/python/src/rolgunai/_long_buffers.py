"""Long buffers of widgets stay in Python, since the manager copies what it is handed: it has a token in place of each.

A buffer in the manager that is as long as a token is one, since a short buffer of just that length is handed in by a
token too. So no bytes of a user's are taken for a token.

    >>> long = LongBuffers()
    >>> picture = bytes(2**16)
    >>> frames, kept = long.handed_in([b"short", picture])
    >>> frames
    [b'short', b'00000000000000000000000']
    >>> long.taken("a", (), ["x", "y"], kept)
    >>> long.given_out(frames)[1] is picture
    True

An update replaces what stands under each key of a state that it names, so that a buffer is let go of where its key has
another value, or where its comm ends.

    >>> long.taken("a", ["y"], [], [])
    >>> len(long)
    0

What comes in a frontend's message may be changed until its callbacks ran, which are handed it: it is copied then.

    >>> frame = bytearray(2**16)
    >>> frames, kept = long.lent([frame])
    >>> frame[0] = 1
    >>> long.settle()
    >>> frame[0] = 2
    >>> long.given_out(frames)[0][:2]
    b'\\x01\\x00'
"""

from __future__ import annotations

from rolgunai import _native


class LongBuffers(_native.LongBuffers):
    """The long buffers of all comms; help() of what it is made of says more of its calls, which are in C."""
