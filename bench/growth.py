#!/usr/bin/env python3
"""CPU microseconds a line, of the program and of the peer in plain Rust, as comms, keys, bytes or lines before it grow:
bench/growth.py PROGRAM. The least of three runs counts, less the least of what sets up; both are run in turn."""
import os
import pathlib
import subprocess
import sys
import tempfile

sys.dont_write_bytecode = True

import build  # noqa: E402
import workloads  # noqa: E402

RUNS = 3


def seconds(program, script):
    """The CPU time of a run."""
    with open(script, "rb") as source:
        run = subprocess.Popen([program], stdin=source, stdout=subprocess.DEVNULL)
        _, status, use = os.wait4(run.pid, 0)
        run.returncode = os.waitstatus_to_exitcode(status)
    if run.returncode:
        raise SystemExit(f"{program} ended with {run.returncode}")
    return use.ru_utime + use.ru_stime


def least(programs, scripts):
    """The least time of each program on each script."""
    found = {}
    for _ in range(RUNS):
        for program in programs:
            for script in scripts:
                key = program, script
                found[key] = min(found.get(key, 1e9), seconds(program, script))
    return found


def row(programs, size, lines, setup, loop, room):
    """The microseconds a line of each program beside so many."""
    begin, full = pathlib.Path(room, "setup"), pathlib.Path(room, "full")
    count = lines or size
    begin.write_bytes(b"".join(setup(size)))
    full.write_bytes(begin.read_bytes() + b"".join(loop(size, count)))
    found = least(programs, (begin, full))
    return [(found[it, full] - found[it, begin]) / count * 1e6 for it in programs]


def main(words):
    if len(words) != 1 or words[0].startswith("-"):
        raise SystemExit(__doc__)
    programs = [words[0], str(build.program("line_peer"))]
    print("| beside | n | program | peer |\n|---|---|---|---|")
    with tempfile.TemporaryDirectory() as room:
        for what, (sizes, lines, setup, loop) in workloads.GROWTH.items():
            rows = [row(programs, size, lines, setup, loop, room) for size in sizes]
            cells = (", ".join(f"{it:.2f}" for it in column) for column in zip(*rows))
            print(f"| {what} | {', '.join(f'{size:,}' for size in sizes)} | {' | '.join(cells)} |", flush=True)


if __name__ == "__main__":
    main(sys.argv[1:])
