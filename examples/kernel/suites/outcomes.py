"""Runs pytest, and writes each test's outcome as JSON into a file: 'passed', 'skipped', or what it failed with. Its
name is as `test_link.py::test_jslink_args`, without folders.

    outcomes.py FILE WORDS..    # the words are pytest's
"""

import json
import pathlib
import sys

import pytest

OPTIONS = ("-q", "-c", "/dev/null", "-p", "no:cacheprovider", "--rootdir", "/", "--color", "no", "-W", "ignore")
LONG = 2000  # characters of a failure that are kept


class Outcomes:
    """Keeps the outcomes, by pytest's hooks."""

    def __init__(self):
        self.found = {}

    def pytest_runtest_logreport(self, report):
        path, _, rest = report.nodeid.partition("::")
        name = f"{pathlib.Path(path).name}::{rest}"
        if report.failed:
            self.found[name] = report.longreprtext[-LONG:]
        elif report.skipped or report.when == "call":
            self.found.setdefault(name, report.outcome)

    def pytest_collectreport(self, report):
        if report.failed:
            self.found[pathlib.Path(report.nodeid).name] = report.longreprtext[-LONG:]


def run(file, words):
    outcomes = Outcomes()
    pytest.main([*OPTIONS, *words], plugins=[outcomes])
    pathlib.Path(file).write_text(json.dumps(outcomes.found))


if __name__ == "__main__":
    run(sys.argv[1], sys.argv[2:])
