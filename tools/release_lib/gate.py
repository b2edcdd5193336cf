"""What the gate proved: ./check leaves a record where it passed, and tools/release takes what was built from nothing
else. The record, crates/comm_c/out/bindings/GATE, has a line 'KEY: VALUE' each for the commit, a sum of its files, the
kit, the gate's last line, and a sum of each file that was built.

For ./check: `gate.py sources` says what it is about to prove, `gate.py passed SOURCES LINE` writes the record where
that is what lies there still."""
import hashlib
import re
import subprocess
import sys
from pathlib import Path

RECORD = "crates/comm_c/out/bindings/GATE"
LIBRARY = "crates/comm_c/out/libcomm_c.a"
PROGRAM = "crates/comm_driver/out/comm_driver"
# What nothing is built of, and a run of the gate itself adds to.
NO_SOURCE = {"tools/refused.txt"}
PASSED = re.compile(r"[1-9]\d* passed, 0 failed(, \d+ skipped)?")


class Refused(Exception):
    """Why there is no release."""


def git(root, *words):
    return subprocess.run(["git", "-C", root, *words], check=True, capture_output=True, text=True).stdout


def sum_of(path):
    return hashlib.sha256(Path(path).read_bytes()).hexdigest()


def sources(root):
    """The commit that is checked out and a sum of its files, as 'COMMIT SUM'. Refused: what lies there is no commit."""
    status = git(root, "status", "--porcelain", "--untracked-files=all").splitlines()
    changed = [line for line in status if line[3:] not in NO_SOURCE]
    if changed:
        raise Refused(f"the checkout isn't clean: {'; '.join(changed[:5])}")
    files = git(root, "ls-tree", "-r", "HEAD").splitlines()
    kept = [line for line in files if line.partition("\t")[2] not in NO_SOURCE]
    return f"{git(root, 'rev-parse', 'HEAD').strip()} {hashlib.sha256(chr(10).join(kept).encode()).hexdigest()}"


def kit_version():
    return subprocess.run(["rt", "version"], check=True, capture_output=True, text=True).stdout.splitlines()[0]


def write(root, proved, line, kit):
    """Writes the record: the sources that were proved, the gate's last line, the kit. Refused: the sources are others
    now."""
    if sources(root).split()[1] != proved.split()[1]:
        raise Refused("the sources changed while the gate ran")
    commit, files = proved.split()
    rows = {"commit": commit, "files": files, "kit": kit, "gate": line}
    rows |= {name: sum_of(Path(root, name)) for name in (LIBRARY, PROGRAM)}
    record = Path(root, RECORD)
    record.parent.mkdir(parents=True, exist_ok=True)
    record.write_text("".join(f"{key}: {value}\n" for key, value in rows.items()))


def read(root, kit=None):
    """The record, as a dict. Refused: there is none, the gate didn't pass, or what lies there is something else."""
    record = Path(root, RECORD)
    if not record.is_file():
        raise Refused(f"{RECORD} isn't there: the gate, ./check, writes it where it passes on a clean checkout")
    rows = dict(line.split(": ", 1) for line in record.read_text().splitlines())
    if not PASSED.fullmatch(rows["gate"]):
        raise Refused(f"the gate didn't pass: {rows['gate']}")
    if rows["files"] != sources(root).split()[1]:
        raise Refused(f"the gate proved {rows['commit']}, and other sources are checked out")
    for name in (LIBRARY, PROGRAM):
        if not Path(root, name).is_file() or sum_of(Path(root, name)) != rows[name]:
            raise Refused(f"{name} isn't what the gate built")
    if kit is not None and kit != rows["kit"]:
        raise Refused(f"the gate proved by {rows['kit']}, and the kit here is {kit}")
    return rows


def main(words):
    root = Path(__file__).resolve().parents[2]
    try:
        if words == ["sources"]:
            print(sources(root))
        elif words[0] == "passed" and len(words) == 3:
            write(root, words[1], words[2], kit_version())
    except Refused as why:
        print(f"no release can be made of this run of the gate: {why}", file=sys.stderr)
        return 1
    return 0


if __name__ == "__main__":
    sys.exit(main(sys.argv[1:]))
