"""How long the stock kernel and the proved one take where widgets are many or threads share them: all states that a page
asks for of 1,000 widgets, four threads that set sliders at once, and many widgets that are made and stay open, with the
memory that they take.

    ROLGUNAI_PACKAGE=FOLDER /usr/bin/python3 bench_threads.py [WIDGETS [ROUNDS]]

Each kernel is a new one for each round (3), and both take turns; the least of each counts. WIDGETS (100,000) are how
many stay open. Times are of the kernel's processor, on which other work of the machine counts less; of the threads also
those of the clock. The stock comms want ipykernel 6.18 or later, and ipywidgets 7 or later for the first row.
"""

import json
import sys

from frontend import Frontend

CELL = """
import json, os, resource, threading, time
import ipywidgets
kernel, many = get_ipython().kernel, {many}
manager, results = kernel.comm_manager, dict()
def heard(kind, **content):
    message = dict(header=dict(msg_type=kind, msg_id=str(time.monotonic())), parent_header={{}}, metadata=dict(version="1.0.0"))
    getattr(manager, kind)(None, None, dict(message, content=content, buffers=[]))
def resident():
    with open("/proc/self/statm") as file:
        return int(file.read().split()[1]) * os.sysconf("SC_PAGESIZE")

if ipywidgets.__version__ >= "7":
    made = [ipywidgets.Layout() for _ in range(1000)]
    heard("comm_open", comm_id="page", target_name="jupyter.widget.control", data={{}})
    took = []
    for _ in range(10):
        began = time.thread_time()
        heard("comm_msg", comm_id="page", data=dict(method="request_states"))
        took.append(time.thread_time() - began)
    results["request_states of 1,000 widgets, ms"] = 1000 * min(took)
    for one in made: one.close()

sliders = [ipywidgets.IntSlider(max=10**9) for _ in range(4)]
def sets(slider):
    for number in range(1, 501): slider.value = number
threads = [threading.Thread(target=sets, args=(slider,)) for slider in sliders]
began, cpu = time.monotonic(), time.process_time()
for one in threads: one.start()
for one in threads: one.join()
results["four threads, each set, us"] = 1e6 * (time.process_time() - cpu) / 2000
results["the same by the clock, us"] = 1e6 * (time.monotonic() - began) / 2000

before, began = resident(), time.thread_time()
kept = [ipywidgets.Layout() for _ in range(many)]
results["each of many widgets made, us"] = 1e6 * (time.thread_time() - began) / many
results["memory of each, KiB"] = (resident() - before) / many / 1024
began = time.thread_time()
for one in kept[-1000:]: one.width = "1px"
results["each of the last 1,000 set, us"] = 1e6 * (time.thread_time() - began) / 1000
began = time.thread_time()
for one in kept[:1000]: one.close()
results["each of the first 1,000 closed, us"] = 1e6 * (time.thread_time() - began) / 1000
print(json.dumps(results))
"""


def measured(kernel, many):
    front = Frontend(kernel) if kernel else Frontend()
    try:
        said, _ = front.run(CELL.format(many=many))
        return json.loads(said)
    finally:
        front.close()


def main(*words):
    many, rounds = [*map(int, words), *(100_000, 3)[len(words) :]]
    runs = [[], []]
    for _ in range(rounds):
        for kernel, found in zip(("python3", None), runs):
            found.append(measured(kernel, many))
    print(f"{'':40} {'stock':>10} {'proved':>10}  stock / proved")
    for name in runs[0][0]:
        stock, proved = (min(run[name] for run in found) for found in runs)
        print(f"{name:40} {stock:10.1f} {proved:10.1f} {stock / proved:8.2f}")


if __name__ == "__main__":
    main(*sys.argv[1:])
