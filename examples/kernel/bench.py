"""How long the stock kernel and the proved one take, in one run: from a message that comes off the socket to the
callback, from `slider.value = n` to the message on the socket, and for sliders that are made.

    ROLGUNAI_PACKAGE=FOLDER /usr/bin/python3 bench.py [--cpu] [ROUNDS [COUNT]]

Both kernels run with the ipywidgets that this Python has, Debian's or that of PYTHONPATH, measure by themselves, and
take turns, ROUNDS (5) times; the best of each counts. COUNT (400) is how many messages are measured each time; five
times as many sliders are made, at most 1,000.
With --cpu it is the processor's time of the kernel's thread, on which other work of the machine counts less.
"""

import json
import pathlib
import sys
import tempfile

from frontend import Frontend

CELL = """
import json, sys
from time import {clock} as clock
sys.path.insert(0, {here!r})
import traffic
kernel, count, results = get_ipython().kernel, {count}, dict()
parent = kernel.get_parent("shell")

class Took(list):
    def begin(self):
        self.began = clock()

    def end(self):
        self.append(clock() - self.began)

    def best(self):
        "The mean of the best half"
        best = sorted(self)[: len(self) // 2 or 1]
        return sum(best) / len(best)

for name, (kind, values) in traffic.cases(count, max(count // 20, 4), 2**20).items():
    for way, play in (("set in the kernel: ", traffic.said), ("off the socket: ", traffic.heard)):
        widget, took = kind(), Took()
        await play(kernel, widget, values, took.begin, took.end)
        widget.close()
        results[way + name] = took.best()
    kernel.set_parent(traffic.IDENTS, parent)
n, took = min(5 * count, 1000), Took()
traffic.made(n, took.begin, took.end)
results["sliders made"] = took.best() / n
open({file!r}, "w").write(json.dumps(results))
"""
HERE = str(pathlib.Path(__file__).resolve().parent)


def main(*words):
    clock = "thread_time" if "--cpu" in words else "perf_counter"
    given = [int(word) for word in words if word != "--cpu"]
    rounds, count = [*given, *(5, 400)[len(given) :]]
    fronts = Frontend("python3", protocol=1), Frontend(protocol=1)
    with tempfile.NamedTemporaryFile() as file:
        runs = [[], []]
        for _ in range(rounds):
            for front, found in zip(fronts, runs):
                said, _ = front.run(CELL.format(here=HERE, count=count, file=file.name, clock=clock))
                if said:
                    sys.exit(said)
                with open(file.name) as results:
                    found.append(json.load(results))
    for front in fronts:
        front.close()
    print(f"{'microseconds':30} {'stock':>10} {'proved':>10}  stock / proved")
    for name in runs[0][0]:
        stock, proved = (1e6 * min(run[name] for run in found) for found in runs)
        print(f"{name:30} {stock:10.0f} {proved:10.0f} {stock / proved:8.2f}")


if __name__ == "__main__":
    main(*sys.argv[1:])
