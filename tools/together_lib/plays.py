"""Random scripts through the program, each run checked; and what is told of all runs."""
import tempfile
import time
from dataclasses import dataclass, field
from pathlib import Path

from fuzz_lib.plays import play
from together_lib.checking import Checker
from together_lib.driver import DriverFault
from together_lib.rules import READS, Fault

SHOWN = 3  # faults of a run


@dataclass
class Tally:
    """Sums over the runs that could be read. `histories` has for each script how many it gave."""

    runs: int = 0
    answers: int = 0
    changes: int = 0
    reads: int = 0
    newer: int = 0
    heard: int = 0
    turns: int = 0
    histories: list = field(default_factory=list)

    def add(self, run):
        self.runs += 1
        self.answers += len(run.answers)
        self.changes += len(run.entries)
        self.reads += sum(it.kind in READS for it in run.answers)
        self.newer += sum(it.kind in READS and it.after > it.before for it in run.answers)
        self.heard += sum(
            one.client == other.client and other.before > one.after for one, other in zip(run.answers, run.answers[1:])
        )
        self.turns += sum(one.client != other.client for one, other in zip(run.entries, run.entries[1:]))

    def told(self, again):
        """In words. How often a change stands behind one of another client says how much the threads were in each
        other's way."""
        most = max(self.changes, 1)
        turns = f"{100 * self.turns / most:.0f} % of them next to one of another client;"
        yield f"{self.runs} runs, {self.answers} lines: {self.changes} changes, {turns}"
        newer = f"{100 * self.newer / max(self.reads, 1):.0f} %"
        heard = f"at {self.heard} lines something new was heard"
        yield f"{self.reads} reads, {newer} of them newer than all that their client had seen; {heard}"
        if again > 1 and self.histories:
            mean = sum(self.histories) / len(self.histories)
            spread = f"{min(self.histories)} to {max(self.histories)}, of {len(self.histories)} scripts"
            yield f"one script gave {mean:.1f} histories in {again} runs ({spread})"


class Plays:
    """Counts what passes and fails. A run that fails is kept and named."""

    def __init__(self, program, driver, cpus=None, keep=None):
        self.words = [*(["taskset", "-c", cpus] if cpus else []), program]
        self.driver = driver
        self.keep = keep
        self.passed = 0
        self.failed = 0
        self.tally = Tally()

    def run(self, checker, script):
        """One run: what was written, the run, and what is wrong with it."""
        status, out, err = play(self.words, script)
        if status != 0 or err:
            return out, None, [Fault("status", f"{status}, and said {err[-200:]!r}")]
        run, faults = checker.checked(out)
        return out, run, faults

    def kept(self, name, script, out):
        self.keep = self.keep or Path(tempfile.mkdtemp(prefix="together-"))
        self.keep.mkdir(parents=True, exist_ok=True)
        (self.keep / f"{name}.jsonl").write_bytes(script)
        (self.keep / f"{name}.out").write_bytes(out)
        return self.keep / f"{name}.out"

    def count(self, name, script, out, faults):
        if not faults:
            self.passed += 1
            return
        self.failed += 1
        print(f"together: {name} FAILED, see {self.kept(name, script, out)}", flush=True)
        for fault in faults[:SHOWN]:
            print(f"together:   {fault}", flush=True)

    def play(self, name, script, again):
        """So many runs of one script."""
        try:
            checker = Checker(script, self.driver)
        except DriverFault as fault:
            self.count(name, script, b"", [Fault("driver", str(fault))])
            return
        histories = set()
        for number in range(again):
            try:
                out, run, faults = self.run(checker, script)
            except DriverFault as fault:
                out, run, faults = b"", None, [Fault("driver", str(fault))]
            self.count(f"{name}-{number}" if again > 1 else name, script, out, faults)
            if run:
                self.tally.add(run)
                histories.add(run.history())
        self.tally.histories += [len(histories)] * bool(histories)

    def play_all(self, make, seed, scripts, lines, again, minutes):
        """Random scripts of 2 to 4 clients, until so many were played or the minutes are over."""
        ends = time.monotonic() + 60 * minutes if minutes else float("inf")
        for number in range(scripts):
            if time.monotonic() >= ends:
                break
            self.play(f"{seed}-{number}", make(f"{seed} {number}").script(2 + number % 3, lines), again)
        for words in self.tally.told(again):
            print(f"together: {words}", flush=True)
