"""Races of a kernel's threads (races.py) over the stock kernel and over the proved one. Over the proved one none goes
wrong, nor where the GIL changes hands every microsecond; how many do over the stock one is told beside it.

test_races.py [--long] [RACE..], where each RACE is a function of races.py; all of them where none is named, but with
--long alone the storm. A race is tried for two seconds with each kernel; after half a minute with the proved one alone.
With --long it is tried for a minute at most, and one that is named to its end, as 10,000 moves of a slider; a storm
goes on for a minute. The last line is 'N passed, M failed'.

ipykernel 7.2 at times stops answering, whatever its comms are: its shell's thread sends on the socket that a stream of
it polls, whose events are told once. So the stream is woken now and then; and where a kernel of that version stops
nevertheless, with no thread of it in what this package is, another one goes on.
"""

import os
import pathlib
import re
import signal
import sys
import tempfile
import time

from checks import check, counted
from frontend import NAME
from page import Page, Stopped
from races import PRELUDE, RACES

SECONDS, ALL, LONG = 2, 30, 60
USUAL, HASTE = 0.005, 1e-6  # seconds after which CPython has the GIL change hands
MOST_STOPS, SHARE = 3, 20  # a kernel that stops is started again, once more for each twentieth time
OURS = re.compile(r"/rolgunai/\w+\.py")
WAKES = """
stream = get_ipython().kernel.shell_stream if getattr(get_ipython().kernel, "shell_channel_thread", None) else None
if stream:
    import tornado.ioloop
    stream.io_loop.add_callback(lambda: tornado.ioloop.PeriodicCallback(stream.flush, 20).start())
"""
TELLS = """
import faulthandler, signal
faulthandler.register(signal.SIGUSR1, open({file!r}, "w"), all_threads=True)
"""


class Kernels:
    """One kernel after another of a kind, where one has stopped."""

    def __init__(self, kernel):
        self.kernel, self.page = kernel, None
        self.stacks = tempfile.NamedTemporaryFile()
        self.prelude = PRELUDE + WAKES + TELLS.format(file=self.stacks.name)
        self.begin()

    def begin(self):
        self.end()
        self.page = Page(self.kernel, protocol=1)
        said = self.page.run(self.prelude)[0]
        check(f"{self.kernel}: what the races need", said, "")
        self.page.widgets = int(self.page.run("print(ipywidgets.__version__.split('.')[0])")[0])

    def end(self):
        if self.page is not None:
            self.page.close()
            self.page = None

    def stopped(self):
        """Another kernel in the place of one that doesn't answer, which has to be one that does so by itself."""
        self.page.front.kernel.signal_kernel(signal.SIGUSR1)
        time.sleep(2)
        stacks = pathlib.Path(self.stacks.name).read_text()
        if self.kernel == NAME:
            check("it stopped, which one without subshells doesn't", self.page.subshell is None, False)
            check("it stopped: where its threads are", stacks if OURS.search(stacks) else "", "")
        self.begin()

    def tried(self, race, times, seconds, least, interval):
        """How often it went wrong, how often it was tried, and how often the kernel stopped."""
        wrong = done = stops = 0
        ends = time.monotonic() + seconds

        def left():
            return times - done if done < least or time.monotonic() < ends else 0

        while left() and stops <= MOST_STOPS + done // SHARE:
            try:
                self.page.run(f"sys.setswitchinterval({interval})")
                for is_wrong in race.run(self.page, left):
                    wrong, done = wrong + is_wrong, done + 1
            except Stopped:
                stops += 1
                self.stopped()
        return wrong, done, stops


def play(race, stock, ours, is_long, is_named, where, ends):
    """Tries a race with the stock kernel, with the proved one, and with that in haste; the proved one alone where time is
    up."""
    began, told = time.monotonic(), []
    for name, kernels, interval in (("stock", stock, USUAL), ("here", ours, USUAL), ("in haste", ours, HASTE)):
        if name != "here" and not is_long and time.monotonic() > ends:
            told.append(f"{name} not tried for want of time")
            continue
        times, seconds, least = race.short or race.long, SECONDS, race.least
        if is_long and name != "in haste":
            times, seconds = race.long, race.seconds or (0 if is_named else LONG)
            least = race.least if seconds else race.long
        wrong, done, stops = kernels.tried(race, times, seconds, least, interval)
        told.append(f"{name} {wrong} of {done}" + (f" ({stops} kernels stopped)" if stops else ""))
        if name != "stock":
            check(f"{race.words}, {name}", (wrong, done >= least), (0, True))
    print(f"{race.words}: {', '.join(told)} ({where}; {time.monotonic() - began:.0f} s)", flush=True)


def main():
    built = pathlib.Path(__file__).resolve().parents[2] / "crates/comm_c/out/bindings/python"
    os.environ.setdefault("ROLGUNAI_PACKAGE", str(built))
    is_long, named = "--long" in sys.argv, [word for word in sys.argv[1:] if word != "--long"]
    stock, ours, ends = Kernels("python3"), Kernels(NAME), time.monotonic() + ALL
    try:
        asked = "print(ipykernel.__version__, ipywidgets.__version__, sys.version.split()[0])"
        where = "ipykernel {}, ipywidgets {}, Python {}".format(*ours.page.run(asked)[0].split())
        where += ", a subshell" if ours.page.subshell else ", a thread"
        for race in RACES:
            is_asked = race.run.__name__ in named if named else is_long or race.short
            if is_asked and race.widgets <= ours.page.widgets:
                play(race, stock, ours, is_long, bool(named), where, ends)
    finally:
        stock.end()
        ours.end()
    return counted()


if __name__ == "__main__":
    sys.exit(main())
