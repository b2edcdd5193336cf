"""The peers' own tests, with the stock manager and with the one that rolgunai.comms.install() puts in: what passes with
stock passes with that, but for what suites/differences.txt names, each with a reason. The last line is 'N passed, M
failed', of the tests that pass with stock."""

import concurrent.futures
import contextlib
import fnmatch
import importlib.util
import json
import os
import pathlib
import re
import shutil
import subprocess
import sys
import tempfile

import ipykernel
from checks import check, counted
from frontend import Frontend

SUITES = pathlib.Path(__file__).resolve().parent / "suites"
FOUND = os.environ.get("PYTHONPATH")  # other packages than the machine's
PATHS = os.pathsep.join([os.environ["ROLGUNAI_PACKAGE"], *([FOUND] if FOUND else [])])
OUTCOMES = "outcomes.json"
SECONDS = 600  # a machine may be busy
INSTALL = "import rolgunai.comms; rolgunai.comms.install()\n"
CELL = "import sys; sys.dont_write_bytecode = True; sys.path.insert(0, {!r}); import widgets; widgets.widgets({})"


def missing():
    needed = {"pytest": "python3-pytest"}
    if not has_comm() or ipykernel.version_info < (6, 18):
        needed["nose"] = "python3-nose"
    return [package for module, package in needed.items() if importlib.util.find_spec(module) is None]


def has_comm():
    return importlib.util.find_spec("comm") is not None


def packages():
    """What the list of differences calls the packages that are here: 6.17, 6.17+comm or 6.29."""
    version = "{}.{}".format(*ipykernel.version_info)
    return version + "+comm" * (has_comm() and ipykernel.version_info < (6, 18))


def widgets(manager=None):
    """ipywidgets' own tests, in a cell of a kernel."""

    def run(is_ours, folder):
        words = [repr(str(folder / OUTCOMES)), *([manager] if manager else [])]
        with contextlib.closing(Frontend("python3", PYTHONPATH=PATHS, TMPDIR=str(folder))) as front:
            return front.run(INSTALL * is_ours + CELL.format(str(SUITES), ", ".join(words)))[0]

    return run


def processes(*files):
    """Tests that make kernels, in a process of their own: kernels in the process by ROLGUNAI_INSTALL, those that it
    starts by a startup file of IPython's."""

    def run(is_ours, folder):
        startup = folder / "profile_default/startup"
        startup.mkdir(parents=True)
        (startup / "install.py").write_text(INSTALL * is_ours)
        if shipped_tests():
            shutil.copytree(shipped_tests(), folder / "tests")
        keys = {"PYTHONPATH": PATHS, "TMPDIR": str(folder), "IPYTHONDIR": str(folder)}
        environment = {**os.environ, **keys, "ROLGUNAI_INSTALL": "yes" * is_ours}
        argv = [sys.executable, "-B", str(SUITES / "outcomes.py"), OUTCOMES, *files]
        ran = subprocess.run(argv, env=environment, cwd=folder, capture_output=True, text=True, timeout=SECONDS)
        return ran.stdout + ran.stderr

    return run


def shipped_tests():
    """The folder of ipykernel's tests, which older packages have; newer versions pass them too."""
    folders = [pathlib.Path(path, "ipykernel/tests") for path in sys.path]
    return next((folder for folder in folders if folder.is_dir()), None)


def suites():
    """The names of the suites that can be run here, and what runs them; tells which can't."""
    yield "ipywidgets", widgets()
    if ipykernel.version_info >= (6, 18):
        yield "ipywidgets-updates", widgets("get_ipython().kernel.comm_manager")
    yield "comms", processes(str(SUITES / "test_comm.py"))
    if importlib.util.find_spec("flaky") is None:
        print("skipped: the tests of ipykernel: Debian's package python3-flaky isn't here")
    elif not shipped_tests():
        print("skipped: the tests of ipykernel: Debian's package python3-ipykernel has none")
    elif not packages().endswith("+comm"):  # they are of kernels more than of comms
        yield "ipykernel", processes("tests/test_message_spec.py", "tests/test_kernel.py")


def outcomes(run, is_ours):
    """The outcomes by the tests' names, or what was said where there are none."""
    with tempfile.TemporaryDirectory(ignore_cleanup_errors=True) as folder:
        said = run(is_ours, pathlib.Path(folder))
        file = pathlib.Path(folder, OUTCOMES)
        return json.loads(file.read_text()) if file.exists() else {"pytest": said[-2000:]}


def differences(name):
    """The tests of a suite that the list names for the packages that are here, with their reasons."""
    found = {}
    for line in (SUITES / "differences.txt").read_text().splitlines():
        if line and not line.startswith("#"):
            among, suite, test, reason = re.fullmatch(r"(\S+) (\S+) (\S+): (.+)", line).groups()
            if suite == name and fnmatch.fnmatch(packages(), among):
                found[test] = reason
    return found


def compare(name, stock, ours):
    """Checks the tests of a suite that pass with stock."""
    listed = differences(name)
    passing = [test for test, outcome in stock.items() if outcome == "passed"]
    skipped = sum(outcome == "skipped" for outcome in stock.values())
    amiss = {test: outcome for test, outcome in stock.items() if outcome not in ("passed", "skipped")}
    few = len(amiss) * 20 > len(stock)
    check(f"{name}: nearly all pass with stock", amiss if few else {}, {})
    for test in passing:
        if test not in listed:
            check(f"{name}: {test}", ours.get(test, ours.get("pytest", "not there")), "passed")
    for test, reason in listed.items():
        differs = test in passing and ours.get(test) != "passed"
        check(f"{name}: {test} differs, as suites/differences.txt says ({reason})", differs, True)
    print(f"{name}: {len(passing)} pass with stock, {len(listed)} of them are known to differ; {skipped} are skipped")


def main():
    if missing():
        print(f"skipped: the peers' own tests: missing: {', '.join(missing())}")
        return counted()
    with concurrent.futures.ThreadPoolExecutor(os.cpu_count()) as pool:
        runs = [(name, *(pool.submit(outcomes, run, is_ours) for is_ours in (False, True))) for name, run in suites()]
        for name, stock, ours in runs:
            compare(name, stock.result(), ours.result())
    return counted()


if __name__ == "__main__":
    sys.exit(main())
