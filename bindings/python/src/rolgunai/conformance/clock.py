"""The time that a kernel has had: on a machine that has more to do than it can, a kernel that is slow isn't one that
hangs."""

from __future__ import annotations

import os
import time
from pathlib import Path

TURN = 0.5  # seconds between two looks, which pass whole until the next one
LEAST = 0.1  # of the time that passes, so that a kernel that hangs is given up on whatever else the machine does


def waited(pid: int) -> float:
    """For how many seconds the threads of a process and of its children were ready to run, and had no processor."""
    processes, total = {pid}, 0
    parents = parents_of_all()
    while more := {child for child, parent in parents.items() if parent in processes} - processes:
        processes |= more
    for process in processes:
        for thread in listed(f"/proc/{process}/task"):
            words = read(f"/proc/{process}/task/{thread}/schedstat").split()
            total += int(words[1]) if len(words) > 1 else 0
    return total / 1e9


def parents_of_all() -> dict[int, int]:
    stats = {int(name): read(f"/proc/{name}/stat").rpartition(")")[2].split() for name in listed("/proc")}
    return {process: int(words[1]) for process, words in stats.items() if words}


def listed(folder: str) -> list[str]:
    """The numbers in a folder; none where it isn't there any more."""
    try:
        return [name for name in os.listdir(folder) if name.isdecimal()]
    except OSError:
        return []


def read(file: str) -> str:
    try:
        return Path(file).read_text(encoding="utf-8", errors="replace")
    except OSError:
        return ""


class Clock:
    """Seconds that a process has had since its clock was made; all that pass where none is given."""

    def __init__(self, pid: int | None) -> None:
        self.pid, self.had, self.looked = pid, 0.0, time.monotonic()
        self.waited = waited(pid) if pid else 0.0

    def now(self) -> float:
        passed = time.monotonic() - self.looked
        if passed < TURN:
            return self.had + passed
        before, self.waited = self.waited, waited(self.pid) if self.pid else 0.0
        self.looked += passed
        self.had += max(LEAST * passed, passed - max(0.0, self.waited - before))
        return self.had
