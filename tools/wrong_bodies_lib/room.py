"""The copy that a run works in, so that the repository may change meanwhile, and nothing of a wrong body stays in
it."""
import shutil
import subprocess
from pathlib import Path

PARTS = ("src", "specs", "proofs")


def copied(source, target):
    target.parent.mkdir(parents=True, exist_ok=True)
    subprocess.run(["cp", "-a", str(source), str(target)], check=True)


def linked(source, target):
    """A folder with the same files, as hard links where the file system can: what the prover makes it puts in a new
    file's place, and never into one that is there, so neither folder sees what becomes of the other."""
    target.parent.mkdir(parents=True, exist_ok=True)
    if subprocess.run(["cp", "-al", str(source), str(target)], stderr=subprocess.DEVNULL).returncode:
        shutil.rmtree(target, ignore_errors=True)
        copied(source, target)


class Room:
    """A copy of the crates, with their libraries as they were built, and what a check of each crate has kept."""

    def __init__(self, root, at):
        self.root, self.at = Path(root), Path(at)
        self.top = self.at / "top"
        self.log = self.at / "log"

    def fill(self, wanted, needed):
        """Copies the crates; of those needed the built libraries, and of those wanted the kept work too."""
        self.top.mkdir(parents=True)
        self.log.mkdir()
        shutil.copy(self.root / "crates.txt", self.top)
        (self.top / ".git").mkdir()
        for folder in sorted((self.root / "crates").iterdir()):
            for part in PARTS:
                if (folder / part).is_dir():
                    copied(folder / part, self.top / "crates" / folder.name / part)
            if folder.name in needed and (folder / "out/rlib").is_dir():
                linked(folder / "out/rlib", self.top / "crates" / folder.name / "out/rlib")
        for name in wanted:
            self.bring_kept(name)

    def bring_kept(self, name):
        """What the repository's own checks of the crate kept, so that only what changed since is checked again."""
        kept = self.root / "crates" / name / "out/incremental"
        if kept.is_dir() and not self.kept(name).exists():
            linked(kept, self.kept(name))

    def written(self, edit):
        """A file of this wrong body alone, for the kit to read."""
        path = self.at / "edits" / f"{edit}.edit"
        path.parent.mkdir(parents=True, exist_ok=True)
        path.write_text(edit.text)
        return path

    def kept(self, name):
        return self.top / "crates" / name / "out/incremental"

    def lane(self, name, number):
        """The kept work of a crate anew, for one trial."""
        made = self.at / "lanes" / str(number)
        shutil.rmtree(made, ignore_errors=True)
        linked(self.kept(name), made)
        return made

    def leave(self, number):
        shutil.rmtree(self.at / "lanes" / str(number), ignore_errors=True)
