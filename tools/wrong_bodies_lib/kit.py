"""The kit's own judge. `rt must-fail` says what came of its edits only when all are through, and begins each crate from
nothing; so its functions are called here one by one. The kit is held to a few versions (tools/kit.sh), so they are the
ones this was written for: newer ones say what came of an edit by a name (NAMED), the older only whether it was
refused."""
import contextlib
import functools
import importlib.machinery
import importlib.util
import os
import re
import shutil
import subprocess
import sys
from pathlib import Path

NEEDED = (
    "must_fail",
    "read_edit",
    "unread",
    "checked",
    "need",
    "free",
    "processors",
)
NAMED = ("REFUSED", "AT_LIMIT", "BAD", "UNSURE", "MISSED")
BY_NAME = "only because a proof file names what the edit took away"
ONE_JOB = ["--jobs", "1"]
ONLY = re.compile(r"only=\d+ proved=\d+$")  # how a check of some functions ends, which gives no verdict on the crate
UNKNOWN = re.compile(r"has no function `([^`]+)`")


# What an older kit says of an edit that a try from nothing may refuse yet.
NOT_SURE = re.compile(r": NOT REFUSED: |: the kept work of a library could not be used")


def name():
    """The kit's name, as rattle-kit-13f."""
    return subprocess.run(["rt", "version"], stdout=subprocess.PIPE, text=True, check=True).stdout.split()[0]


@functools.lru_cache(maxsize=None)
def loaded():
    sys.dont_write_bytecode = True
    loader = importlib.machinery.SourceFileLoader("kit_rt", os.path.realpath(shutil.which("rt")))
    made = importlib.util.module_from_spec(importlib.util.spec_from_loader("kit_rt", loader))
    loader.exec_module(made)
    lacking = [name for name in NEEDED if not hasattr(made, name)]
    if lacking:
        raise SystemExit(f"tools/wrong_bodies: this kit's rt has no {lacking[0]}")
    return made


def has_names():
    """Whether the kit says what came of an edit by a name."""
    return all(hasattr(loaded(), it) for it in NAMED)


def how_refused(outcome, text):
    """'proof', 'by-name', 'limit', or None where the edit isn't refused, or by no proof that fails."""
    rt = loaded()
    if has_names() and outcome == rt.AT_LIMIT:
        return "limit"
    if outcome != (rt.REFUSED if has_names() else True):
        return None
    return "by-name" if BY_NAME in text else "proof"


def is_unsure(outcome, text):
    """Whether an edit that was tried over kept work is to be tried from nothing."""
    rt = loaded()
    if has_names():
        return outcome in (rt.MISSED, rt.UNSURE)
    return not outcome and bool(NOT_SURE.search(text))


class Kit:
    """The kit at work on the crates of one room. To be made in the main thread, since it sets a signal's handler."""

    def __init__(self, root):
        self.rt = loaded()
        self.rt.rtlib.guarded()
        self.crates = {it.name: it for it in self.rt.rtlib.crates_below(str(root))}

    def need(self, name):
        """The most memory that a check of the crate from nothing is likely to take, in bytes."""
        return self.rt.need(self.crates[name])

    def free(self):
        return self.rt.free()

    def processors(self):
        return self.rt.processors()

    def is_built(self, name):
        return self.crates[name].is_built()

    def build(self, name, jobs, log):
        """Builds the library for the crates above it, over what stands in its out/; returns whether it is proved."""
        crate = self.crates[name]
        with open(log, "a", encoding="utf-8") as crate.out:
            return crate.build_rlib(["--jobs", str(jobs)], anew=False) == 0

    def is_proved(self, name, jobs, kept, log):
        """Whether the crate is proved as it is; the check leaves its work in the folder kept."""
        ran = self.rt.checked(self.crates[name], {}, ["--jobs", str(jobs)], str(kept))
        log.write_text(ran.stdout)
        return ran.returncode == 0

    def tried(self, edit, path, kept):
        """How the prover refuses the edit (None: it doesn't), and what the kit says of it. What isn't refused over the
        kept work is tried once more from nothing."""
        crate = self.crates[edit.crate]
        outcome, text = self.rt.must_fail(crate, str(path), ONE_JOB, str(kept))
        if is_unsure(outcome, text):
            outcome, text = self.rt.must_fail(crate, str(path), ONE_JOB)
        return how_refused(outcome, text), text.partition(".edit: ")[2] or text

    def texts_of(self, edit, path):
        """The texts that the edit changes, by their file, and the same as they are; nothing where it can't be
        applied."""
        crate = self.crates[edit.crate]
        after, _why = self.rt.read_edit(str(path), crate.folder)
        return after or {}, {file: Path(crate.folder, file).read_text() for file in after or {}}

    def refusal(self, name, texts, paths, kept):
        """The lines in which the prover refuses these functions of the crate with these texts; none where it proves
        them, or can't read the texts. A function that goes by another name is left out."""
        paths = list(paths)
        while paths:
            flags = [*ONE_JOB, *(word for path in paths for word in ("--only", path))]
            ran = self.rt.checked(self.crates[name], texts, flags, kept and str(kept))
            unknown = UNKNOWN.search(ran.stdout) if ran.returncode == 2 else None
            if not unknown or unknown[1] not in paths:
                break
            paths.remove(unknown[1])
        else:
            return []
        lines = ran.stdout.rstrip("\n").split("\n")
        is_read = not any(self.rt.unread(it, texts) for it in lines) and not self.rt.rtlib.STALE.search(ran.stdout)
        return lines if is_read and ran.returncode == 1 and ONLY.match(lines[-1]) else []


def are_of_the_gate(root, names):
    """Whether the libraries are those that rt ci has just made: it leaves them with no stamp, all of one run."""
    outs = [(Path(root, "crates", name, "out/rlib"), name) for name in names]
    return all((it / f"{name}.rlib/format").exists() and not (it / "stamp").exists() for it, name in outs)


def build_archive(crate, flags):
    """Proves a static library over the libraries below it as they stand, and builds its archive, as `rt lib` with these
    flags does over those with a stamp. Returns the status."""
    rt = loaded()
    rt.rtlib.guarded()
    flags = ["--jobs", str(min(4, rt.processors())), *flags]
    if hasattr(rt, "share_work"):
        rt.share_work(True)
    elif status := crate.check(flags):  # whose jobs share the proofs, which those of a build don't in an older kit
        return status
    return crate.build_static(flags)


@contextlib.contextmanager
def locked(root):
    """Holds other runs of rt off the crates of this folder, and gives them by their names."""
    rtlib = loaded().rtlib
    crates = rtlib.crates_below(str(root))
    held = rtlib.lock(crates)
    try:
        yield {it.name: it for it in crates}
    finally:
        for it in held:
            os.close(it)
