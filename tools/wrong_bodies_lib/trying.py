"""One run: chooses wrong bodies, tries them side by side in a copy, and keeps the record."""
import subprocess
import sys
import threading
import time
from dataclasses import dataclass, field
from pathlib import Path

from . import kit as kits
from .batches import Function, function_of, grouped, is_refused, merged
from .choice import SHARE, Mode, Recorded, chosen, crates_in_turn
from .edits import FOLDERS, Edit, body_fault, edits_below
from .lanes import Job, in_lanes
from .record import Record
from .room import Room
from .sums import Sums, below

# What a check over kept work takes of one from nothing: 1.7 GB were seen at comm_value, where 5 are reckoned from
# nothing.
OVER_KEPT = 0.45


@dataclass
class Wish:
    """What a run is to do."""

    root: Path
    mode: Mode = Mode.PART
    folders: tuple = FOLDERS[:1]
    names: tuple = ()
    lanes: int = 0
    minutes: float = 5
    by: float | None = None
    after_ci: bool = False
    share: int = SHARE


@dataclass(frozen=True)
class Tried:
    """A wrong body that changes one function: the texts after it and before, by their file."""

    edit: Edit
    function: Function
    after: dict
    before: dict


@dataclass
class Left:
    """What of a crate is to be tried over a check of the whole of it, and how many groups are under way before that."""

    edits: list
    groups: int


@dataclass
class Told:
    """What came of a run."""

    refused: dict = field(default_factory=dict)
    failed: dict = field(default_factory=dict)
    stand: int = 0
    not_reached: list = field(default_factory=list)

    def lines(self):
        by_name, by_limit = (
            [str(it) for it, how in sorted(self.refused.items()) if how == wanted] for wanted in ("by-name", "limit")
        )
        yield from (f"wrong_bodies: {it}: {why}" for it, why in sorted(self.failed.items(), key=str))
        yield from (f"wrong_bodies: {it}: refused only because a proof file names what it took away" for it in by_name)
        yield from (
            f"wrong_bodies: {it}: refused only by a limit of the prover, which gave no verdict" for it in by_limit
        )
        yield f"wrong_bodies: {len(self.refused) + len(self.failed)} tried, {self.stand} stand by the record"
        skipped = ""
        if self.not_reached:
            crates = ", ".join(sorted({it.crate for it in self.not_reached}))
            yield f"skipped: {len(self.not_reached)} wrong bodies of {crates} that stand by a kit's record: want of time"
            skipped = f", {len(self.not_reached)} skipped"
        yield f"{len(self.refused)} passed, {len(self.failed)} failed{skipped}"


def commits_of(root):
    ran = subprocess.run(
        ["git", "-C", str(root), "rev-list", "--count", "HEAD"],
        stdout=subprocess.PIPE,
        stderr=subprocess.DEVNULL,
        text=True,
    )
    return int(ran.stdout) if ran.returncode == 0 and ran.stdout.strip().isdigit() else 0


class Run:
    """A run of one wish, in a folder of its own."""

    def __init__(self, wish, at):
        self.wish, self.began = wish, time.monotonic()
        self.room = Room(wish.root, at)
        self.record = Record(Path(wish.root) / "tools/refused.txt", kits.name())
        self.told, self.lock, self.number, self.done = Told(), threading.Lock(), 0, 0

    def say(self, text):
        minutes = (time.monotonic() - self.began) / 60
        print(f"wrong_bodies: {minutes:.1f} min: {text}", file=sys.stderr, flush=True)

    def plan(self):
        """What must be tried, and what may be tried again; what is no wrong body fails at once."""
        wish = self.wish
        edits = edits_below(wish.root, wish.folders, wish.names)
        sums = Sums(wish.root)
        self.sums = {it: sums.of(it) for it in edits}
        for edit in edits:
            why = body_fault(edit.text)
            if why:
                self.told.failed[edit] = why
        sound = [it for it in edits if it not in self.told.failed]
        recorded = Recorded(self.record.rows(), self.record.rows_of_others())
        must, again = chosen(sound, self.sums, recorded, wish.mode, commits_of(wish.root), wish.share)
        self.told.stand = len(sound) - len(must) - len(again)
        return must, again

    def forget_lost(self):
        """Takes out of the record what is no wrong body any more."""
        there = {str(it) for it in edits_below(self.wish.root, FOLDERS)}
        for name in self.record.names() - there:
            self.record.forget(name)

    def whole(self):
        self.forget_lost()
        must, again = self.plan()
        self.must, self.count = set(must), len(must) + len(again)
        self.say(
            f"{len(must)} to be tried, {len(again)} tried again as far as time allows, "
            f"{self.told.stand} stand by the record"
        )
        if self.count:
            by_crate = {}
            for edit in must + again:
                by_crate.setdefault(edit.crate, []).append(edit)
            self.prepare_room(list(by_crate))
            self.try_all(by_crate)
        return self.told

    def prepare_room(self, wanted):
        """The copy, with every library that a wanted crate stands on."""
        rows = Sums(self.wish.root).rows
        needed = sorted({low for name in wanted for low in below(rows, name)})
        with kits.locked(self.wish.root) as crates:
            unbuilt = [name for name in needed if not crates[name].is_built()]
            if self.wish.after_ci and kits.are_of_the_gate(self.wish.root, needed):
                unbuilt = []
            self.room.fill(set(wanted) | set(unbuilt), needed)
        self.kit = kits.Kit(self.room.top)
        self.lanes = self.wish.lanes or self.kit.processors()
        for name in self.kit.crates:
            if name in unbuilt:
                self.say(f"{name}: its library is to be proved first")
                if not self.kit.build(name, self.lanes, self.room.log / f"{name}.library"):
                    self.stop(name, self.room.log / f"{name}.library")

    def stop(self, name, log):
        print(log.read_text()[-2000:], file=sys.stderr)
        raise SystemExit(f"wrong_bodies: {name} isn't proved as it stands, so nothing above it was tried")

    def try_all(self, by_crate):
        """First the crates where something must be tried, the dearest of them first, and then the others in turn."""
        cost = {name: sum(it in self.must for it in edits) * self.kit.need(name) for name, edits in by_crate.items()}
        order = sorted(crates_in_turn(by_crate, commits_of(self.wish.root)), key=lambda it: -cost[it])
        self.unreached = {it for edits in by_crate.values() for it in edits}
        jobs = [job for name in order for job in self.of_crate(name, by_crate[name])]
        deadline = None if self.wish.mode is Mode.ALL else self.began + 60 * self.wish.minutes
        last = None if self.wish.by is None else self.began + 60 * self.wish.by
        in_lanes(jobs, self.lanes, self.kit.free, deadline, last)
        for edit in self.unreached & self.must:
            self.told.failed[edit] = "not recorded, and not tried for want of time"
        self.told.not_reached = sorted(self.unreached - self.must)
        self.told.stand += len(self.told.not_reached)

    def of_crate(self, name, edits):
        """Those that must be tried, and apart from them, since they may be left for want of time, the others."""
        parts = [it for it in edits if it in self.must], [it for it in edits if it not in self.must]
        return [job for part in parts if part for job in self.of_part(name, part)]

    def of_part(self, name, edits):
        """Each wrong body that lies in one function is tried by a check of that function, a few together; the others,
        and those not refused so, over a check of the whole crate."""
        texts = {it: self.kit.texts_of(it, self.room.written(it)) for it in edits}
        functions = {it: function_of(before, after) for it, (after, before) in texts.items()}
        alone = [it for it in edits if functions[it] and functions[it].path()]
        groups = grouped(alone, functions)
        left = Left([it for it in edits if it not in alone], len(groups))
        tried = {it: Tried(it, functions[it], *texts[it]) for it in alone}
        made = [
            self.job(group, lambda its=group: self.try_alone(name, [tried[it] for it in its], left)) for group in groups
        ]
        return made or [self.first(name, left.edits)]

    def first(self, name, edits):
        """The check of a crate as it stands, over which its wrong bodies are tried."""
        is_warm = self.room.kept(name).is_dir()
        need = int(self.kit.need(name) * (OVER_KEPT if is_warm else 1))
        is_only_one = len({it.crate for it in self.unreached}) == 1 and self.kit.free() > 2 * need
        jobs = 1 if is_warm else max(2, self.lanes) if is_only_one else 2

        def run():
            self.room.kept(name).mkdir(parents=True, exist_ok=True)
            self.say(
                f"{name}: checked as it stands{'' if is_warm else ', from nothing'}, for {len(edits)} wrong bodies"
            )
            log = self.room.log / f"{name}.check"
            if not self.kit.is_proved(name, jobs, self.room.kept(name), log):
                with self.lock:
                    for edit in edits:
                        self.told.failed[edit] = "not tried, since its crate isn't proved as it stands"
                        self.unreached.discard(edit)
                return []
            return [self.job([it], lambda it=it: self.trial(it)) for it in edits]

        return Job(run, need, not any(it in self.must for it in edits))

    def job(self, edits, work):
        """The work on these edits of one crate."""
        return Job(work, int(self.kit.need(edits[0].crate) * OVER_KEPT), not any(it in self.must for it in edits))

    def try_alone(self, name, group, left):
        """Tries edits in one copy, each by a check of its function alone. What isn't told to be refused there is left
        for a check of the whole crate, which comes once no group is left."""
        began, number = time.monotonic(), self.next_number()
        kept = self.room.lane(name, number) if self.room.kept(name).is_dir() else None
        before = {file: text for it in group for file, text in it.before.items()}
        try:
            told = self.kit.refusal(
                name, merged(before, [it.after for it in group]), sorted({it.function.path() for it in group}), kept
            )
        finally:
            self.room.leave(number)
        seconds = (time.monotonic() - began) / len(group)
        with self.lock:
            for it in group:
                if is_refused(it.function, told):
                    self.note(it.edit, "proof", "", seconds)
                else:
                    left.edits.append(it.edit)
            left.groups -= 1
            is_last = left.groups == 0
        return [self.first(name, left.edits)] if is_last and left.edits else []

    def next_number(self):
        with self.lock:
            self.number += 1
            return self.number

    def trial(self, edit):
        began, number = time.monotonic(), self.next_number()
        kept = self.room.lane(edit.crate, number)
        try:
            how, text = self.kit.tried(edit, self.room.written(edit), kept)
        finally:
            self.room.leave(number)
        with self.lock:
            self.note(edit, how, "; ".join(text.splitlines()), time.monotonic() - began)
        return []

    def note(self, edit, how, why, seconds):
        """What came of an edit: how it was refused, or why that can't be said."""
        self.unreached.discard(edit)
        if how:
            self.told.refused[edit] = how
            self.record.put(edit, self.sums[edit], how)
        else:
            self.told.failed[edit] = why
            self.record.drop(edit)
        self.done += 1
        self.say(f"{self.done} of {self.count}: {edit}: {how or 'FAILED: ' + why}, {seconds:.0f} s")
