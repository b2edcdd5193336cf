"""Whether this process was forked, which costs no call of the system to ask."""

from __future__ import annotations

import os

forks = 0  # how many lie between the first process and this one


def _forked() -> None:
    global forks
    forks += 1


os.register_at_fork(after_in_child=_forked)
