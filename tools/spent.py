"""Processor time of the compiler's processes below this one, by crate: they are looked at while they run, so the last
second or two of each isn't counted."""
import os
from collections import defaultdict
from pathlib import Path

TICKS = os.sysconf("SC_CLK_TCK")


def kind_of(words, folder):
    """What a process of the compiler does: a proof, that of tests, or a wrong body."""
    if "rt-edit" in folder:
        return "wrong bodies"
    return "tests" if "--test" in words else "proof"


def fields_of(process):
    """What /proc tells of a process behind its name: its state, its parent's number, and so on."""
    return (process / "stat").read_text().rsplit(")", 1)[1].split()


def is_below(process, top):
    """Whether the process was begun by the one of this number, or by one below it."""
    while process.name not in ("0", "1"):
        parent = fields_of(process)[1]
        if parent == str(top):
            return True
        process = process.with_name(parent)
    return False


class Spent:
    def __init__(self):
        self.seconds = {}

    def look(self):
        """Notes how long each process has run."""
        for process in Path("/proc").iterdir():
            if not process.name.isdigit():
                continue
            try:
                words = (process / "cmdline").read_text().split("\0")
                if "--crate-name" not in words or not is_below(process, os.getpid()):
                    continue
                fields = fields_of(process)
                folder = os.readlink(process / "cwd")
            except OSError:
                continue
            crate = words[words.index("--crate-name") + 1]
            began = fields[19]
            ticks = int(fields[11]) + int(fields[12])
            self.seconds[process.name, began] = (crate, kind_of(words, folder), ticks / TICKS)

    def table(self):
        """A line a crate: minutes in all, and of its proof, its tests' proof and its wrong bodies."""
        kinds = ("proof", "tests", "wrong bodies")
        minutes = defaultdict(lambda: dict.fromkeys(kinds, 0.0))
        for crate, kind, seconds in self.seconds.values():
            minutes[crate][kind] += seconds / 60
        rows = sorted(minutes.items(), key=lambda row: -sum(row[1].values()))
        lines = [f"{'crate':24}{'minutes':>8}" + "".join(f"{kind:>14}" for kind in kinds)]
        for crate, by in [*rows, ("all", {kind: sum(row[1][kind] for row in rows) for kind in kinds})]:
            lines.append(f"{crate:24}{sum(by.values()):8.1f}" + "".join(f"{by[kind]:14.1f}" for kind in kinds))
        return lines
