"""A run beside its script and the one-thread manager."""
from together_lib.answers import Unreadable, read_run
from together_lib.lines import lines_of
from together_lib.replay import replayed
from together_lib.rules import LATER_RULES, Asked, Fault, kinds_fit, lines_answered


class Checker:
    """Checks runs of one script."""

    def __init__(self, script, driver):
        self.driver = driver
        lines = lines_of(script)
        self.asked = {line.number: Asked(line, told) for line, told in zip(lines, driver.played(lines))}

    def checked(self, text):
        """The run, where what was written can be read, else None; and what is wrong with it."""
        try:
            run = read_run(text)
        except Unreadable as fault:
            return None, [Fault("form", str(fault))]
        return run, self.faults(run)

    def faults(self, run):
        """What is wrong with a run. What rests on a rule isn't looked at where it doesn't hold."""
        found = list(lines_answered(self.asked, run)) or list(kinds_fit(self.asked, run))
        if found:
            return found
        found = [fault for rule in LATER_RULES for fault in rule(self.asked, run)]
        if any(fault.rule == "entries" for fault in found):
            return found
        return found + list(replayed(self.asked, run, self.driver))
