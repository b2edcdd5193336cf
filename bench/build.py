#!/usr/bin/env python3
"""Builds the peers in plain Rust, offline, in bench/out: bench/build.py [line_peer] [thread_peer]

Their crates are Debian's (dpkg -L tells where), which stand in for the usual source. It prints the program of each."""
import os
import pathlib
import shutil
import subprocess
import sys

HERE = pathlib.Path(__file__).resolve().parent
PEERS = ["line_peer", "thread_peer"]


def crates():
    """The folder of Debian's Rust crates."""
    told = subprocess.run(["dpkg", "-L", "librust-hashbrown-dev"], capture_output=True, text=True)
    for file in told.stdout.split():
        path = pathlib.Path(file)
        if path.name == "Cargo.toml":
            return path.parent.parent
    raise SystemExit("bench/build.py: librust-hashbrown-dev isn't installed (bench/README.md has the packages)")


def program(name):
    """Where a peer's program is."""
    return HERE / "out" / name / "target" / "release" / name


def build(name):
    """Builds one of the peers of the sources as they are."""
    work = HERE / "out" / name
    shutil.rmtree(work / "src", ignore_errors=True)
    shutil.copytree(HERE / name, work, dirs_exist_ok=True)
    source = ['source.crates-io.replace-with="packaged"', f'source.packaged.directory="{crates()}"']
    words = ["cargo", "build", "--release", "--offline", "--quiet"]
    for it in source:
        words += ["--config", it]
    if not shutil.which("cargo"):
        raise SystemExit("bench/build.py: there is no cargo on the PATH (bench/README.md has the packages)")
    subprocess.run(words, cwd=work, env={**os.environ, "CARGO_BUILD_JOBS": "2"}, check=True)
    return program(name)


if __name__ == "__main__":
    for peer in sys.argv[1:] or PEERS:
        if peer not in PEERS:
            raise SystemExit(__doc__)
        print(os.path.relpath(build(peer)))
