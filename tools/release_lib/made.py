"""Makes a release, of the sources of a commit and of what the gate built of them: each file, and their sums."""
import datetime
import os
import shutil
import subprocess
import tempfile
from pathlib import Path
from typing import NamedTuple

from release_lib import archives, elf, gate, inside, layouts, pages, python

PLATFORM = "linux-x86_64"


class Release(NamedTuple):
    """What a release is made of: the checkout, a copy of the sources of its commit, the version, the gate's record, the
    date of the commit in seconds, the kit's folder, and a Python that builds."""

    root: Path
    sources: Path
    version: str
    record: dict
    date: int
    kit: Path
    python: str


def copy_of_sources(root, into):
    """Copies what is committed, and nothing else."""
    into.mkdir()
    archive = subprocess.run(["git", "-C", root, "archive", "HEAD"], check=True, capture_output=True).stdout
    subprocess.run(["tar", "x", "-C", into], input=archive, check=True)


def laid_out(release, layout, parts, below, **words):
    """The files of an archive: those of its layout, and below a folder what is proved and the licenses."""
    files = {}
    for name, source in layout.items():
        path = release.sources / source
        is_template = source.endswith(".in")
        files[name] = pages.filled(path, release.version, **words) if is_template else path.read_bytes()
    files[f"{below}PROVED.md"] = pages.proved(release.sources, release.version, release.record)
    files[f"{below}RELEASE"] = pages.release_text(release.version, release.record)
    files[f"{below}LICENSE"] = (release.sources / "LICENSE").read_bytes()
    return files | {f"{below}{name}": text for name, text in inside.license_files(parts).items()}


def linked(release, into):
    """librolgunai.a and the shared library, out of the proved archive: the folder, and the shared library's name."""
    into.mkdir()
    subprocess.run([release.root / "tools/link_library", release.root / gate.LIBRARY, into], check=True)
    return into, next(path.name for path in into.glob("librolgunai.so.*"))


def for_c(release, libraries, shared, parts):
    files = laid_out(release, layouts.C, parts, "doc/", GLIBC=elf.newest_glibc(libraries / shared))
    files["lib/librolgunai.a"] = (libraries / "librolgunai.a").read_bytes()
    files[f"lib/{shared}*"] = (libraries / shared).read_bytes()
    files["lib/librolgunai.so"] = f"-> {shared}"
    return files


def for_cargo(release, libraries, parts):
    files = laid_out(release, layouts.CARGO, parts, "rolgunai-sys/")
    files["rolgunai-sys/lib/librolgunai.a"] = (libraries / "librolgunai.a").read_bytes()
    return files


def for_programs(release, parts):
    program = release.root / gate.PROGRAM
    files = laid_out(release, layouts.PROGRAMS, parts, "", GLIBC=elf.newest_glibc(program))
    files[f"{program.name}*"] = program.read_bytes()
    return files


def make_all(release, work, into):
    """Makes each file of a release, into a folder."""
    version, date = release.version, release.date
    of_library, of_program = (inside.parts_of(release.sources, release.kit, name) for name in ("comm_c", "comm_driver"))
    libraries, shared = linked(release, work / "libraries")
    for name, files in (
        (f"librolgunai-{version}-{PLATFORM}", for_c(release, libraries, shared, of_library)),
        (f"rolgunai-cargo-{version}", for_cargo(release, libraries, of_library)),
        (f"rolgunai-programs-{version}-{PLATFORM}", for_programs(release, of_program)),
    ):
        (into / f"{name}.tar.gz").write_bytes(archives.packed(name, files, date))
    licenses = inside.license_files(of_library)
    wheel = python.make(release, libraries / "librolgunai.a", licenses, work, into)
    (into / "RELEASE").write_text(pages.release_text(version, release.record))
    created = datetime.datetime.fromtimestamp(date, datetime.timezone.utc).strftime("%Y-%m-%dT%H:%M:%SZ")
    contents = {"librolgunai": of_library, "comm_driver": of_program}
    (into / f"rolgunai-{version}.spdx.json").write_text(inside.sbom(version, created, release.record, contents))
    page = pages.filled(release.sources / "tools/release_lib/pages/README.md.in", version, WHEEL=wheel)
    (into / "README.md").write_text(page)
    sums = [f"{gate.sum_of(path)}  {path.name}\n" for path in sorted(into.iterdir())]
    (into / "SHA256SUMS").write_text("".join(sums))


def make(root, version, record, kit, builder, into):
    """Makes a release into a folder, which is there whole at the end or not at all."""
    date = int(gate.git(root, "log", "-1", "--format=%ct", "HEAD"))
    with tempfile.TemporaryDirectory() as work:
        release = Release(root, Path(work, "sources"), version, record, date, kit, builder)
        copy_of_sources(root, release.sources)
        made = Path(work, "made")
        made.mkdir()
        os.umask(0o022)
        make_all(release, Path(work), made)
        shutil.rmtree(into, ignore_errors=True)
        shutil.copytree(made, into)
