"""Tests of the conformance suite: each scenario fails on a kernel that is broken so (conformance_kernel.py), and passes
on the same kernel unbroken; on this package's kernel nothing fails, on the stock one what conformance_known.txt says.

    test_conformance.py PACKAGE              # the folder where the package is built
    test_conformance.py PACKAGE --kernels    # this package's kernel and the stock one alone
"""

import ast
import contextlib
import json
import os
import signal
import subprocess
import sys
import tempfile
import time
from pathlib import Path

sys.path.insert(0, sys.argv[1])

import checks
import ipykernel
from rolgunai.conformance.cells import cells_for
from rolgunai.conformance.clock import Clock
from rolgunai.conformance.frontend import Frontend
from rolgunai.conformance.play import CHOICE, FAILED, PASSED, SKIPPED, Player
from rolgunai.conformance.scenario import ScenarioError, parse, scenarios

HERE = Path(__file__).resolve().parent
CELLS = (
    "echo unregister greeter closer raiser listener heard open send close ipywidgets widget widget_value widget_set "
    "widget_close image image_value buffers own_ids close_data open_unregistered "
    "control churn_comms churn_widgets churn_end"
).split()
HEAD = "title: t\ngroup: opening\nsource: s\nholds: h\nfault: f\n\n"
BAD_TEXTS = [
    ("no step", HEAD),
    ("no key", "titel: t\n\n> shell comm_msg {}\n< nothing"),
    ("a missing key", HEAD.replace("holds: h\n", "") + "> shell comm_msg {}\n< nothing"),
    ("no such group", HEAD.replace("opening", "others") + "> shell comm_msg {}\n< nothing"),
    ("nothing due", HEAD + "> shell comm_msg {}"),
    ("due before a step", HEAD + "< nothing"),
    ("no such channel", HEAD + "> stdin comm_msg {}\n< nothing"),
    ("no such word", HEAD + "> shell comm_msg {}\n< something"),
]
# kernels that are slow, a scenario, and what comes of it
SLOW = [
    ("slow", "info_control", CHOICE, "comm_info on control: answered there (as ipykernel, and the proved manager in it "
     "and in xeus)"),
    ("slow_iopub", "storm", PASSED),
]  # fmt: skip
# processes, and which part of the time that passes they have at least and at most; another one works on the same
# processor as those that are pinned
PINNED = ["taskset", "-c", str(min(os.sched_getaffinity(0))), "nice"]
WORK = [sys.executable, "-c", "while True: pass"]
CLOCKS = [
    ("sleeps", ["sleep", "60"], 0.7, 1),
    ("waits for a processor", [*PINNED, *WORK], 0, 0.6),
    ("has a child that waits for one", ["sh", "-c", '"$@"; true', "sh", *PINNED, *WORK], 0, 0.6),
]

COMMANDS = {
    "broken": ["-B", str(HERE / "conformance_kernel.py"), sys.argv[1]],
    "stock": ["-m", "ipykernel_launcher"],
    "proved": ["-m", "rolgunai.kernel"],
}
PATH = os.pathsep.join(filter(None, [sys.argv[1], os.environ.get("PYTHONPATH")]))


@contextlib.contextmanager
def player(name, **keys):
    """A player on one of these kernels."""
    with tempfile.TemporaryDirectory() as folder:
        argv = [sys.executable, "-Xfrozen_modules=off", *COMMANDS[name], "-f", "{connection_file}"]
        spec = {"argv": argv, "display_name": name, "language": "python", "env": {"PYTHONPATH": PATH}}
        (Path(folder) / name).mkdir()
        (Path(folder) / name / "kernel.json").write_text(json.dumps(spec))
        frontend = Frontend(name, 60, folder)
        try:
            cells = {cell: cell for cell in CELLS} if name == "broken" else cells_for("python")
            yield Player(frontend, cells, 0.5, **keys)
        finally:
            frontend.close()


def scenarios_and_faults():
    with player("broken", anew=False) as broken:
        for scenario in scenarios():
            broken.frontend.run("fault none")
            result = broken.play(scenario)
            yield f"{scenario.name}: {result.reasons}", result.outcome in (PASSED, CHOICE), True
            for fault in scenario.fault:
                broken.frontend.run(f"fault {fault}")
                result = broken.play(scenario)
                yield f"{scenario.name}, with the fault {fault}", result.outcome, FAILED


def slow_kernels():
    """A kernel that is slow is no kernel that fails, nor one that lets a message go."""
    with player("broken", anew=False) as slow:
        for fault, name, *wanted in SLOW:
            slow.frontend.run(f"fault {fault}")
            result = slow.play(next(scenario for scenario in scenarios() if scenario.name == name))
            yield f"{name}, with a kernel that is {fault}", [result.outcome, *result.reasons], wanted


@contextlib.contextmanager
def process(words):
    """The id of a process, which is ended with its children."""
    started = subprocess.Popen(words, start_new_session=True)
    try:
        yield started.pid
    finally:
        os.killpg(started.pid, signal.SIGKILL)
        started.wait()


def clocks():
    with process([*PINNED, "-n", "0", *WORK]):
        for what, words, least, most in CLOCKS:
            with process(words) as one:
                begin, clock = time.monotonic(), Clock(one)
                time.sleep(2)
                part = clock.now() / (time.monotonic() - begin)
            yield f"the time of a process that {what}: {part:.2f}", least <= part <= most, True


def known_failures():
    """Of the stock kernel that is here: whether each is always seen, by the scenarios' names."""
    stock = "ipykernel-" + ".".join(map(str, ipykernel.version_info[:2]))
    lines = (HERE / "conformance_known.txt").read_text().split("\n\n")[1].splitlines()
    words = [line.partition(":")[0].split() for line in lines]
    return {name: often == "always" for kernel, name, often in words if kernel == stock}


def stock_kernel():
    known = known_failures()
    with player("stock") as stock:
        for scenario in scenarios():
            result = stock.play(scenario)
            may = {True: [FAILED], False: [FAILED, PASSED, SKIPPED], None: [PASSED, CHOICE, SKIPPED]}
            said = f"the stock kernel, {scenario.name}: {result.reasons}"
            yield said, result.outcome in may[known.get(scenario.name)], True


def proved_kernel():
    with player("proved") as proved:
        for scenario in scenarios():
            result = proved.play(scenario)
            yield f"the proved kernel, {scenario.name}: {result.reasons}", result.outcome != FAILED, True
            may_skip = scenario.name == "storm_subshell" or scenario.group == "widgets" or "control" in scenario.needs
            yield f"it skips {scenario.name}: {result.reasons}", result.outcome != SKIPPED or may_skip, True


def texts():
    for what, text in BAD_TEXTS:
        yield what, type(checks.raised(lambda text=text: parse("text", text))), ScenarioError
    for cell, code in cells_for("python").items():
        # xeus-python --raw runs no cell of comments alone
        yield f"[{cell}] has a statement", bool(ast.parse(code).body), True


if __name__ == "__main__":
    own = [] if sys.argv[2:] == ["--kernels"] else [texts, scenarios_and_faults, slow_kernels, clocks]
    sys.exit(checks.run_at_once(*own, stock_kernel, proved_kernel))
