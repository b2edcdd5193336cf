#!/usr/bin/env python3
"""Instructions a line, of the program and of the peer in plain Rust (valgrind's callgrind): the same figure each time,
whatever else the machine does.

A line's instructions are those of a script of 3 N lines less those of one of N, over 2 N. With --shared the program
plays over the manager that threads share. With --no-end it is looked at when it has answered the last line and its
input isn't closed yet, so what it lets go at its end counts for no line. A block of 2 KiB and more that is copied or
cleared at once (`rep movsb`) counts one instruction a byte."""
import argparse
import pathlib
import re
import subprocess
import sys
import tempfile
from concurrent.futures import ThreadPoolExecutor

sys.dont_write_bytecode = True

import build  # noqa: E402
import workloads  # noqa: E402

LINES = {"w3r": 200, "w4": 60}
VALGRIND = ["valgrind", "--tool=callgrind"]


def whole(words, script):
    """The instructions of a run."""
    with open(script, "rb") as source:
        run = [*VALGRIND, "--callgrind-out-file=/dev/null", *words]
        done = subprocess.run(run, stdin=source, stdout=subprocess.DEVNULL, stderr=subprocess.PIPE)
    found = re.search(rb"Collected : (\d+)", done.stderr)
    if done.returncode or not found:
        raise SystemExit(f"{words} gave {done.returncode}: {done.stderr[-300:]!r}")
    return int(found[1])


def read_all(run, wanted):
    """Reads so many bytes of what a run writes."""
    seen = 0
    while seen < wanted:
        part = run.stdout.read1(1 << 20)
        if not part:
            raise SystemExit(f"{run.args} ended before its last answer")
        seen += len(part)


def before_the_end(words, script):
    """The instructions of a run up to its last answer."""
    text = pathlib.Path(script).read_bytes()
    wanted = len(subprocess.run(words, input=text, stdout=subprocess.PIPE, check=True).stdout)
    none = subprocess.DEVNULL
    with tempfile.TemporaryDirectory() as room:
        run = [*VALGRIND, f"--callgrind-out-file={room}/profile", *words]
        run = subprocess.Popen(run, stdin=subprocess.PIPE, stdout=subprocess.PIPE, stderr=none)
        with ThreadPoolExecutor(1) as side:
            fed = side.submit(lambda: (run.stdin.write(text), run.stdin.flush()))
            read_all(run, wanted)
            fed.result()
        subprocess.run(["callgrind_control", "--dump", str(run.pid)], stdout=none, stderr=none, check=True)
        run.stdin.close()
        run.stdout.read()
        run.wait()
        return int(re.search(r"^(?:summary|totals): (\d+)", pathlib.Path(room, "profile.1").read_text(), re.M)[1])


def options():
    made = argparse.ArgumentParser(description=__doc__, formatter_class=argparse.RawDescriptionHelpFormatter)
    made.add_argument("program", help="the built comm_driver")
    made.add_argument("--shared", action="store_true")
    made.add_argument("--no-end", action="store_true")
    made.add_argument("--only", metavar="w2,w5", help="only these workloads")
    return made.parse_args()


def measured(name, table, room, pool):
    """The instructions a line of each that plays a workload."""
    lines = LINES.get(name, 2000)
    paths = {}
    for count in (lines, 3 * lines):
        paths[count] = pathlib.Path(room, f"{name}.{count}")
        with open(paths[count], "wb") as out:
            out.writelines(workloads.script(name, count))
    jobs = {}
    for who, (words, counted) in table.items():
        for count, path in paths.items():
            jobs[who, count] = pool.submit(counted, words, path)
    return {who: (jobs[who, 3 * lines].result() - jobs[who, lines].result()) / (2 * lines) for who in table}


def main():
    asked = options()
    words = [asked.program, *(["shared"] if asked.shared else [])]
    peer = [str(build.program("line_peer"))]
    table = {"program": (words, before_the_end if asked.no_end else whole), "peer": (peer, whole)}
    with tempfile.TemporaryDirectory() as room, ThreadPoolExecutor(2) as pool:
        print("| | program | peer | ÷ peer |\n|---|---|---|---|")
        for name in asked.only.split(",") if asked.only else workloads.WORKLOADS:
            each = measured(name, table, room, pool)
            ratio = each["program"] / each["peer"]
            print(f"| {name} | {each['program']:,.0f} | {each['peer']:,.0f} | {ratio:.2f} |", flush=True)


if __name__ == "__main__":
    main()
