"""Tests of how the conformance suite ends, as its user sees it: where a kernel doesn't start, ends amid a scenario or
hangs, and where what is asked can't be done. Each ends with a line that says so, a status, and no traceback, in bounded
time, and leaves no kernel behind.

    test_conformance_ends.py PACKAGE    # the folder where the package is built
"""

import importlib.util
import json
import os
import re
import subprocess
import sys
import tempfile
import time
from pathlib import Path

sys.path.insert(0, sys.argv[1])

import checks

HERE = Path(__file__).resolve().parent
KERNEL = [sys.executable, "-Xfrozen_modules=off", "-B", str(HERE / "conformance_kernel.py"), sys.argv[1]]
STARTS = """import os, runpy, sys
path = sys.argv.pop(1)
time = 'second' if os.path.exists(path) else 'first'
open(path, 'w').close()
if time != sys.argv.pop(1): sys.exit(f'no {time} time')
sys.argv[0] = sys.argv.pop(1)
sys.path.insert(0, os.path.dirname(sys.argv[0]))
runpy.run_path(sys.argv[0], run_name='__main__')"""
LIMIT = 240  # seconds, on a busy machine

KERNELS = {
    "works": [*KERNEL, "-f", "{connection_file}"],
    "absent": ["/nowhere/kernel", "{connection_file}"],
    "ends": [sys.executable, "-c", "raise ValueError('no kernel here')", "{connection_file}"],
    "silent": [sys.executable, "-c", "import time; time.sleep(3600)", "{connection_file}"],
    "once": [sys.executable, "-Xfrozen_modules=off", "-B", "-c", STARTS, "{folder}/marker", "first", *KERNEL[-2:], "-f",
             "{connection_file}"],
    "second": [sys.executable, "-Xfrozen_modules=off", "-B", "-c", STARTS, "{folder}/marker", "second", *KERNEL[-2:],
               "-f", "{connection_file}"],
}  # fmt: skip
CELLS = {
    "good": "language: conformance\n\n[echo]\necho\n",
    "ending": "language: conformance\n\n[echo]\nfault kernel_ends\n",
    "hanging": "language: conformance\n\n[echo]\nfault kernel_hangs\n",
    "failing": "language: conformance\n\n[echo]\nfails\n",
    "empty": "language: conformance\n",
    "like": "language: conformance\nlike: nothing\n\n[before]\n1\n",
}
TWO = "--only echo --only unknown_target --report {folder}/report.json --report {folder}/report.html".split()
# what; the kernel and more words; the status; what is said, each in one line
ROWS = [
    ("a kernel that works", "works --cells {folder}/good.txt --two", 0, ["^2 passed, 0 choice, 0 failed, 0 skipped"]),
    ("no such kernel", "nowhere", 2, ["^No such kernel named nowhere; there are: .*works"]),
    ("a command that isn't there", "absent", 2, ["^absent doesn't start: FileNotFoundError"]),
    ("a kernel that ends at once", "ends", 2, ["^ends doesn't start: the kernel ended; .*ValueError: no kernel here"]),
    ("a kernel that says nothing", "silent --timeout 0.5", 2, ["doesn't answer kernel_info_request within 2 s"]),
    ("a kernel that ends amid a scenario", "works --cells {folder}/ending.txt --two", 1,
     ["^failed +opening/echo", "^ +the kernel ended; .*NoMoreError: as the test wants it",
      "^passed +opening/unknown_target", "^1 passed, 0 choice, 1 failed"]),
    ("a kernel that hangs", "works --cells {folder}/hanging.txt --timeout 15 --two", 1,
     ["^failed +opening/echo", "^ +the kernel doesn't answer kernel_info_request within 15 s",
      "^passed +opening/unknown_target", "^1 passed, 0 choice, 1 failed"]),
    ("a cell that fails, and what waits behind it is aborted", "works --cells {folder}/failing.txt --two", 1,
     ["^failed +opening/echo", "^ +the cell .echo. ended in CellError: as the test wants it",
      "^passed +opening/unknown_target", "^1 passed, 0 choice, 1 failed"]),
    ("a kernel that starts once", "once --cells {folder}/ending.txt --two", 1,
     ["^failed +opening/echo", "^ +and after it the kernel didn't start anew: the kernel ended; .*no second time",
      "^failed +opening/unknown_target", "^ +not played, since the kernel didn't start anew: the kernel ended",
      "^0 passed, 0 choice, 2 failed"]),
    ("a kernel that starts at the second time", "second --cells {folder}/good.txt --two", 0, ["^2 passed, 0 choice"]),
    ("no such scenario", "works --only nothing", 2, ["there is no scenario or group nothing; the groups are opening"]),
    ("a report in no folder", "works --report {folder}/none/report.html", 2, ["there is no folder for the report"]),
    ("no time", "works --timeout 0", 2, ["--storm and --timeout are more than 0 seconds"]),
    ("cells that aren't there", "works --cells {folder}/none.txt", 2, ["the cells .*none.txt can't be read"]),
    ("a file without cells", "works --cells {folder}/empty.txt", 2, ["empty.txt has no cell"]),
    ("cells like none", "works --cells {folder}/like.txt", 2, ["the cells .*like.txt can't be read"]),
]  # fmt: skip
# the same by pytest
PYTEST = [
    ("pytest: a kernel that works", "works", "good", 0, ["2 passed"]),
    ("pytest: a kernel that ends at once", "ends", "good", 1, ["ends doesn't start: the kernel ended", "2 errors"]),
    ("pytest: a kernel that starts once", "once", "ending", 1, ["didn't start anew: the kernel ended", "2 failed"]),
]


def kernels(folder):
    """The kernelspecs and the cells, in a folder."""
    for name, argv in KERNELS.items():
        spec = {"argv": [word.replace("{folder}", folder) for word in argv], "display_name": name, "language": "any"}
        spec["env"] = {"PYTHONPATH": sys.argv[1]}
        (Path(folder) / "kernels" / name).mkdir(parents=True)
        (Path(folder) / "kernels" / name / "kernel.json").write_text(json.dumps(spec))
    for name, text in CELLS.items():
        (Path(folder) / f"{name}.txt").write_text(text)


def left_behind(folder):
    """The processes that have the folder among their words, but for this one's."""
    found = []
    for process in Path("/proc").glob("[0-9]*"):
        try:
            words = (process / "cmdline").read_bytes().replace(b"\0", b" ").decode(errors="replace")
        except OSError:
            continue
        if folder in words and process.name != str(os.getpid()):
            found.append(words)
    return found


def run(what, words, status, said):
    """Runs a module with some words in a new folder. Gives how it ends, beside how it must."""
    with tempfile.TemporaryDirectory() as folder:
        kernels(folder)
        path = os.pathsep.join(filter(None, [sys.argv[1], os.environ.get("PYTHONPATH")]))
        environment = {**os.environ, "PYTHONPATH": path, "JUPYTER_RUNTIME_DIR": folder}
        command = [sys.executable, "-B", "-m", *(word.replace("{folder}", folder) for word in words)]
        command += ["--kernels", f"{folder}/kernels"]
        begin = time.monotonic()
        ran = subprocess.run(command, capture_output=True, text=True, env=environment, cwd=folder, timeout=LIMIT)
        output = ran.stdout + ran.stderr
        yield f"{what}: the status after {time.monotonic() - begin:.1f} s: {output}", ran.returncode, status
        for line in said:
            yield f"{what}: {line} in {output}", bool(re.search(line, output, re.MULTILINE)), True
        yield f"{what}: a traceback of its own: {output}", "\nTraceback" in f"\n{output}", False
        yield f"{what}: a kernel is left", left_behind(folder), []
        if "{folder}/report.json" in words:
            rows = json.loads((Path(folder) / "report.json").read_text())["scenarios"]
            names = [row["name"] for row in rows]
            yield f"{what}: the scenarios of the report", names, ["echo", "unknown_target"]
            yield f"{what}: the page", "unknown_target" in (Path(folder) / "report.html").read_text(), True


def calls():
    for what, words, status, said in ROWS:
        asked = [each for word in words.split() for each in (TWO if word == "--two" else [word])]
        yield what, ["rolgunai.conformance", *asked], status, said
    if not importlib.util.find_spec("pytest"):
        print("skipped: the conformance suite by pytest: it isn't installed")
        return
    for what, kernel, cells, status, said in PYTEST:
        options = ["-p", "rolgunai.conformance.options", "-k", "opening/echo or opening/unknown_target]"]
        options += ["--pyargs", "rolgunai.conformance", "--kernel", kernel, "--cells", f"{{folder}}/{cells}.txt"]
        yield what, ["pytest", "-q", *options], status, said


if __name__ == "__main__":
    sys.exit(checks.run_at_once(*[lambda call=call: run(*call) for call in calls()]))
