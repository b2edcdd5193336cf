"""The program, and what it gave for a case."""
import os
import resource
import subprocess
import tempfile
from concurrent.futures import ThreadPoolExecutor

WAYS = ((), ("shared",))


def limited(stack):
    return lambda: resource.setrlimit(resource.RLIMIT_STACK, (stack << 10, stack << 10))


def difference(given, wanted):
    """Where the bytes first differ, in words."""
    at = next((it for it, pair in enumerate(zip(given, wanted)) if pair[0] != pair[1]), min(len(given), len(wanted)))
    line = given.count(b"\n", 0, at) + 1
    here = slice(max(0, at - 60), at + 60)
    return f"answer {line}, byte {at}: {given[here]!r} in the place of {wanted[here]!r}"


def fault_of(program, way, case, stack, seconds=600):
    """What is wrong with how the program plays the case, or nothing. What nests deep has a stack of so many KiB; 0: as
    it comes."""
    with tempfile.TemporaryFile() as script:
        script.write(case.script)
        script.seek(0)
        limit = limited(stack) if case.is_deep and stack else None
        try:
            ran = subprocess.run(
                [program, *way], stdin=script, capture_output=True, timeout=seconds, preexec_fn=limit, env={}
            )
        except subprocess.TimeoutExpired:
            return f"no end after {seconds} seconds"
    if ran.returncode != 0:
        return f"status {ran.returncode}, {ran.stderr[-300:]!r}"
    if ran.stderr:
        return f"standard error has {ran.stderr[-300:]!r}"
    if ran.stdout != case.wanted(way):
        return difference(ran.stdout, case.wanted(way))
    return ""


class Count:
    """How many passed and failed; a script that failed is kept and named."""

    def __init__(self, program, stack):
        self.program = program
        self.stack = stack
        self.passed = 0
        self.failed = 0

    def tell(self, case, way, fault):
        if not fault:
            self.passed += 1
            return
        self.failed += 1
        with tempfile.NamedTemporaryFile("wb", prefix="hostile-", suffix=".jsonl", delete=False) as kept:
            kept.write(case.script)
        print(f"hostile: {case.name} {' '.join(way)} FAILED, see {kept.name}: {fault}", flush=True)

    def play(self, case):
        for way in WAYS:
            self.tell(case, way, fault_of(self.program, way, case, self.stack))

    def play_all(self, cases, lanes=0):
        """Many small ones, some at a time."""
        wanted = [(case, way) for case in cases for way in WAYS]
        with ThreadPoolExecutor(lanes or os.cpu_count()) as pool:
            faults = pool.map(lambda it: fault_of(self.program, it[1], it[0], self.stack), wanted)
            for (case, way), fault in zip(wanted, faults):
                self.tell(case, way, fault)
