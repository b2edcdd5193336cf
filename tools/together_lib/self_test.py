"""Whether the checker passes true runs and finds what is falsified in them: runs that are made here, by a scheduler of
chance."""
import random

from together_lib import falsified
from together_lib.answers import written
from together_lib.checking import Checker
from together_lib.simulated import simulated

RULES = {
    "form",
    "lines",
    "kind",
    "bad",
    "unavailable",
    "stock",
    "entries",
    "calls",
    "seen",
    "heard",
    "order",
    "replay",
    "read",
    "end",
}
MOST = 40  # runs, until each way had a place


class SelfTest:
    """Counts what passes and fails."""

    def __init__(self, make, driver, seed):
        self.make = make
        self.driver = driver
        self.seed = seed
        self.passed = 0
        self.failed = 0
        self.ways = set()

    def count(self, name, is_passed, text=""):
        self.passed += is_passed
        self.failed += not is_passed
        if not is_passed:
            print(f"together: self-test: {name} FAILED{': ' * bool(text)}{text}", flush=True)

    def of_run(self, number):
        """A true run, and what can be falsified in it."""
        chance = random.Random(f"{self.seed} {number}")
        checker = Checker(self.make(f"{self.seed} {number}").script(2 + number % 3, 200), self.driver)
        run = simulated(checker.asked, self.driver, chance)
        _, faults = checker.checked(written(run))
        self.count(f"the true run {number}", not faults, "; ".join(map(str, faults[:3])))
        for name, rule, text in falsified.texts(run, checker.asked, chance):
            found = {it.rule for it in checker.checked(text)[1]}
            self.count(
                f"{name} in run {number}",
                rule in found,
                f"found by {', '.join(sorted(found)) or 'nothing'}, and not by {rule}",
            )
            self.ways.add(name)

    def test(self, runs):
        """At least so many runs, and more until each way to falsify one had a place."""
        number = 0
        while number < runs or (self.ways != falsified.NAMES and number < MOST):
            self.of_run(number)
            number += 1
        for name in sorted(falsified.NAMES - self.ways):
            self.count(f"{name} had a place in {number} runs", False)
        rules = {*falsified.WAYS.values(), "form"}
        self.count("each rule finds something", rules == RULES, ", ".join(sorted(rules ^ RULES)))
        print(
            f"together: self-test: {number} true runs, and {len(self.ways)} ways to falsify one, "
            f"{self.passed + self.failed} cases in all",
            flush=True,
        )
