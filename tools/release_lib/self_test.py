"""Parts of tools/release_test: when there is no release, that two are the same, what one has, and how it is played."""
import json
import os
import re
import shutil
import subprocess
import tarfile
import zipfile
from pathlib import Path

from release_lib import elf, gate

SAID = "1 passed, 0 failed"


class Tried:
    """What was tried so far. A failure is told at once."""

    def __init__(self):
        self.passed = self.failed = self.skipped = 0

    def check(self, name, found, wanted):
        if found == wanted:
            self.passed += 1
        else:
            self.failed += 1
            print(f"release_test: {name} FAILED\n  it is    {found}\n  and not  {wanted}")

    def skip(self, what):
        self.skipped += 1
        print(f"skipped: {what}")

    def take(self, name, text, status):
        """Takes what a tool counted by itself, in its last line."""
        lines = text.splitlines()
        counts = re.fullmatch(r"(\d+) passed, (\d+) failed", lines[-1] if lines else "")
        for line in lines:
            if line.startswith("skipped: "):
                self.skip(line.removeprefix("skipped: "))
        if not counts or status or counts[2] != "0":
            print("\n".join(line for line in lines if not line.startswith("skipped: ")))
        self.passed += int(counts[1]) if counts else 0
        self.check(f"{name}, status", status, 0)


def commit_all(clone, message):
    identity = ["-c", "user.name=test", "-c", "user.email=test@example.invalid", "-c", "commit.gpgsign=false"]
    gate.git(clone, "add", "--all")
    gate.git(clone, *identity, "commit", "-q", "--allow-empty", "-m", message)


class Bench:
    """Where releases are made: copies of a checkout as it lies there, committed, at a tag, with what was built and a
    record of the gate."""

    def __init__(self, root, work):
        self.root, self.work = root, work
        self.kit = gate.kit_version()
        self.version = subprocess.run([root / "tools/version"], capture_output=True, text=True).stdout.strip()
        self.environment = {
            **os.environ,
            "GIT_AUTHOR_DATE": "2026-01-02T03:04:05Z",
            "GIT_COMMITTER_DATE": "2026-01-02T03:04:05Z",
        }
        os.environ.update(self.environment)

    def copy(self, name):
        """A copy of the checkout, with what isn't committed yet."""
        clone = self.work / name
        clone.parent.mkdir(parents=True, exist_ok=True)
        subprocess.run(["git", "clone", "-q", "--no-checkout", self.root, clone], check=True)
        there = gate.git(self.root, "ls-files", "-z", "--cached", "--others", "--exclude-standard").split("\0")
        for file in filter(None, there):
            if (self.root / file).is_symlink() or (self.root / file).is_file():
                (clone / file).parent.mkdir(parents=True, exist_ok=True)
                shutil.copy2(self.root / file, clone / file, follow_symlinks=False)
        commit_all(clone, "as it lies there")
        gate.git(clone, "branch", "whole")
        return self.whole(clone)

    def whole(self, clone):
        """Makes a copy one whose release can be made, also after it was changed."""
        gate.git(clone, "reset", "-q", "--hard", "whole")
        gate.git(clone, "clean", "-q", "-d", "--force")
        gate.git(clone, "tag", "--force", f"v{self.version}")
        for name in (gate.LIBRARY, gate.PROGRAM):
            (clone / name).parent.mkdir(parents=True, exist_ok=True)
            shutil.copy2(self.root / name, clone / name)
        gate.write(clone, gate.sources(clone), SAID, self.kit)
        return clone

    def release(self, clone, version=None):
        """Runs tools/release there."""
        command = [clone / "tools/release", version or self.version]
        return subprocess.run(command, cwd=clone, capture_output=True, text=True)


def edited(name, old, new):
    """Changes a file of a copy."""

    def edit(clone):
        path = clone / name
        text = path.read_text()
        assert text.count(old) >= 1, (name, old)
        path.write_text(text.replace(old, new, 1))

    return edit


def committed(edit):
    """Makes a change of a copy, and commits it."""

    def change(clone):
        edit(clone)
        commit_all(clone, "a change")

    return change


def appended(name):
    return lambda clone: (clone / name).open("ab").write(b"\n")


def other_versions(clone):
    """Commits a library whose version isn't the header's, and moves the tag and the record there."""
    committed(edited("crates/comm_c/src/version.rt", "VERSION: u32 = ", "VERSION: u32 = 7"))(clone)
    for tag in gate.git(clone, "tag").split():
        gate.git(clone, "tag", "--force", tag)
    gate.write(clone, gate.sources(clone), SAID, gate.kit_version())


# What is done to a copy whose release could be made, and why none is made then.
REFUSED = [
    ("no record", lambda clone: (clone / gate.RECORD).unlink(), "GATE isn't there: the gate, ./check, writes it"),
    ("the gate failed", edited(gate.RECORD, SAID, "9 passed, 1 failed"), "the gate didn't pass: 9 passed, 1 failed"),
    ("another kit", edited(gate.RECORD, "kit: ", "kit: other-"), "the gate proved by other-"),
    ("another library", appended(gate.LIBRARY), f"{gate.LIBRARY} isn't what the gate built"),
    ("no program", lambda clone: (clone / gate.PROGRAM).unlink(), f"{gate.PROGRAM} isn't what the gate built"),
    ("a file that isn't committed", edited("README.md", "# ", "#  "), "the checkout isn't clean:  M README.md"),
    ("a file that git doesn't know", lambda clone: (clone / "crates/x.rt").touch(), "isn't clean: ?? crates/x.rt"),
    ("sources that the gate didn't see", committed(appended("README.md")), "and other sources are checked out"),
    ("no tag", lambda clone: gate.git(clone, "tag", "-d", *gate.git(clone, "tag").split()), "hasn't the tag v"),
    ("versions that differ", other_versions, "crates/comm_c/src/version.rt: "),
]


# What stands in each file that tells a version after `tools/version --set 2.3.4`.
TOLD = [
    ("bindings/c/rolgunai.h", '#define ROLGUNAI_VERSION "2.3.4"'),
    ("bindings/c/rolgunai.h", "#define ROLGUNAI_VERSION_NUMBER 2003004 /*"),
    ("crates/comm_c/src/version.rt", "pub const VERSION: u32 = 2003004;"),
    ("crates/comm_c/specs/Version.antt", "and the third: 2.3.4"),
    ("crates/comm_c/specs/Version.antt", "version = 2003004"),
]


def versions(bench, tried):
    """tools/version, in a copy: it writes another version, and finds the one file that has to be written by hand."""
    clone = bench.copy("versions")
    done = subprocess.run([clone / "tools/version", "--set", "2.3.4"], capture_output=True, text=True)
    said = [line.partition(":")[0] for line in done.stdout.splitlines()]
    tried.check("another version is written by hand in", (said, done.returncode), (["CHANGELOG.md", "2.3.4"], 1))
    for name, text in TOLD:
        tried.check(f"{name} has another version", text in (clone / name).read_text(), True)
    changes = clone / "CHANGELOG.md"
    changes.write_text(changes.read_text().replace(f"## {bench.version}", "## 2.3.4"))
    done = subprocess.run([clone / "tools/version", "--check"], capture_output=True, text=True)
    tried.check("all have it", (done.stdout, done.returncode), ("2.3.4\n", 0))
    shutil.rmtree(clone)


def refusals(bench, tried):
    clone = bench.copy("changed")
    for name, change, why in REFUSED:
        change(clone)
        done = bench.release(clone)
        tried.check(f"{name}: {done.stderr}", (done.returncode, why in done.stderr), (1, True))
        tried.check(f"{name}: nothing is made", (clone / "out").exists(), False)
        bench.whole(clone)
    done = bench.release(clone, "9.9.9")
    tried.check(f"another version: {done.stderr}", (done.returncode, "and not 9.9.9" in done.stderr), (1, True))
    proved = gate.sources(clone)
    committed(appended("README.md"))(clone)
    try:
        gate.write(clone, proved, SAID, bench.kit)
        tried.check("a record of sources that changed meanwhile", "is written", "is refused")
    except gate.Refused:
        tried.check("a record of sources that changed meanwhile", "is refused", "is refused")
    shutil.rmtree(clone)


def same_bytes(bench, tried):
    """Two releases out of two folders. The first one stays for what follows."""
    clones = [bench.copy("one/checkout"), bench.copy("another/folder/checkout")]
    for clone in clones:
        done = bench.release(clone)
        tried.check(f"a release is made: {done.stderr}", done.returncode, 0)
    first, second = ({path.name: path.read_bytes() for path in (it / "out/release").iterdir()} for it in clones)
    tried.check("the files of both", sorted(first), sorted(second))
    for name, text in first.items():
        tried.check(f"{name}: the same bytes", text == second.get(name), True)
    bench.made = clones[0] / "out/release"
    shutil.rmtree(clones[1])


def unpacked(bench, name):
    """Where an archive of the release is unpacked, for the part that asks."""
    into = bench.work / "unpacked" / name
    into.mkdir(parents=True, exist_ok=True)
    with tarfile.open(bench.made / name) as archive:
        archive.extractall(into)
    return into / name.removesuffix(".tar.gz")


def library_of(bench):
    return f"librolgunai-{bench.version}-linux-x86_64.tar.gz"


def wheel_of(bench):
    return f"rolgunai-{bench.version}-cp311-abi3-manylinux_2_17_x86_64.whl"


def contents(bench, tried):
    """Which files a release has, and that no template is left in an archive."""
    version = bench.version
    wanted = {"README.md", "RELEASE", "SHA256SUMS", library_of(bench), wheel_of(bench), f"rolgunai-{version}.spdx.json"}
    wanted |= {f"rolgunai-programs-{version}-linux-x86_64.tar.gz"}
    wanted |= {f"{name}-{version}.tar.gz" for name in ("rolgunai", "rolgunai-cargo")}
    tried.check("the files", {path.name for path in bench.made.iterdir()}, wanted)
    for archive in sorted(bench.made.glob("*.tar.gz")):
        unfilled = [path for path in unpacked(bench, archive.name).rglob("*") if path.is_file() and is_template(path)]
        tried.check(f"templates in {archive.name}", unfilled, [])


def is_template(path):
    return path.suffix == ".in" and path.name != "MANIFEST.in" or re.search(rb"@[A-Z]+@", path.read_bytes()) is not None


def shared_library(bench, tried):
    """What librolgunai.so shows and needs."""
    headers = "".join((bench.root / f"bindings/c/{name}.h").read_text() for name in ("rolgunai", "rolgunai_client"))
    calls = sorted(set(re.findall(r"^uint32_t (rolgunai_\w+)\(", headers, re.MULTILINE)))
    shared = unpacked(bench, library_of(bench)) / "lib" / f"librolgunai.so.{bench.version.partition('.')[0]}"
    tried.check("what librolgunai.so shows", elf.exported(shared), calls)
    dynamic = subprocess.run(["objdump", "-p", shared], capture_output=True, text=True).stdout
    tried.check("instructions that an older processor hasn't", elf.newer_instructions(shared), [])
    tried.check("its soname", re.findall(r"SONAME +(\S+)", dynamic), [shared.name])
    tried.check("what it needs", re.findall(r"NEEDED +(\S+)", dynamic), ["libc.so.6"])
    tried.check("no stack that may be run", re.findall(r"STACK .*\n.*flags (\S+)", dynamic), ["rw-"])


def wheel(bench, tried):
    """What the wheel says of itself, and what its module shows and asks for."""
    about = f"rolgunai-{bench.version}.dist-info"
    with zipfile.ZipFile(bench.made / wheel_of(bench)) as archive:
        module = bench.work / "_native.abi3.so"
        module.write_bytes(archive.read("rolgunai/_native.abi3.so"))
        metadata, tags = (archive.read(f"{about}/{name}").decode() for name in ("METADATA", "WHEEL"))
    tried.check("what the module shows", elf.exported(module), ["PyInit__native"])
    newest = tuple(map(int, elf.newest_glibc(module).split(".")))
    tried.check(f"it takes glibc up to 2.17: {newest}", newest <= (2, 17), True)
    tried.check("its tag", re.findall(r"^Tag: (.*)$", tags, re.MULTILINE), ["cp311-abi3-manylinux_2_17_x86_64"])
    fields = {"Name": "rolgunai", "Version": bench.version, "License": "MIT", "Requires-Python": ">=3.11"}
    for field, value in fields.items():
        tried.check(f"METADATA {field}", re.findall(rf"^{field}: (.*)$", metadata, re.MULTILINE), [value])


def sbom(bench, tried):
    """What the SBOM lists, and that each license that it states goes along with the library."""
    told = json.loads((bench.made / f"rolgunai-{bench.version}.spdx.json").read_text())
    packages = {it["SPDXID"]: it for it in told["packages"]}
    ends = {it[end] for it in told["relationships"] for end in ("spdxElementId", "relatedSpdxElement")}
    tried.check("what the SBOM relates and doesn't list", ends - {*packages, "SPDXRef-DOCUMENT"}, set())
    inside = {
        packages[it["relatedSpdxElement"]]["name"]: packages[it["relatedSpdxElement"]]["licenseDeclared"]
        for it in told["relationships"]
        if it["spdxElementId"] == "SPDXRef-librolgunai"
    }
    tried.check("the license of serde_json", inside.get("serde_json"), "Apache-2.0 OR MIT")
    texts = (unpacked(bench, library_of(bench)) / "doc/licenses").iterdir()
    stated = {name for name, license_expression in inside.items() if license_expression != "NOASSERTION"}
    tried.check("the texts of licenses", {path.name.partition("-")[0] for path in texts}, stated)


# How ./play is called beside a release, its status, and what it says. {P} is the program.
PLAYED = [
    ("--program", "--program {P} examples/slider.jsonl", 0, "of release {V}, commit {C} (" + SAID + ")"),
    ("beside the checkout", "examples/slider.jsonl", 0, "of release {V}, commit {C} (" + SAID + ")"),
    ("over the manager that threads share", "--program {P} --shared examples/slider.jsonl", 0, "of release {V}"),
    ("no program", "--program nowhere examples/slider.jsonl", 2, "wants a program, and 'nowhere' isn't one"),
    ("a program that isn't of the RELEASE", "--program {P}.other examples/slider.jsonl", 2, "isn't the program of"),
    ("a program without a RELEASE", "--program alone/comm_driver examples/slider.jsonl", 0, "there is no file RELEASE"),
    ("with --unproved", "--program {P} --unproved examples/slider.jsonl", 2, "not both"),
]


def players(bench, tried):
    """./play in a checkout where nothing is built, without the kit."""
    beside = unpacked(bench, f"rolgunai-programs-{bench.version}-linux-x86_64.tar.gz")
    program = beside / "comm_driver"
    checkout = beside.parent / "checkout"
    subprocess.run(["git", "clone", "-q", bench.made.parents[1], checkout], check=True)
    (beside / "comm_driver.other").write_bytes(program.read_bytes() + b"\0")
    (beside / "comm_driver.other").chmod(0o755)
    (checkout / "alone").mkdir()
    shutil.copy2(program, checkout / "alone")
    commit = gate.git(checkout, "rev-parse", "HEAD").strip()
    expected = (bench.root / "examples/slider.expected").read_text()
    for name, words, status, said in PLAYED:
        command = ["./play", *words.format(P=program).split()]
        environment = {**os.environ, "PATH": "/usr/bin:/bin"}
        done = subprocess.run(command, cwd=checkout, env=environment, capture_output=True, text=True)
        tried.check(f"./play, {name}: status", done.returncode, status)
        said = said.format(V=bench.version, C=commit)
        tried.check(f"./play, {name}: {done.stderr}", said in done.stderr, True)
        tried.check(f"./play, {name}: answers", done.stdout, "" if status else expected)
