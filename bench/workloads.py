#!/usr/bin/env python3
"""Workloads, as generators of a script's lines (bytes, each with its line feed). Each has lines that set up, and lines
of its loop; `bench/workloads.py NAME LINES` prints a script."""
import base64
import json
import random
import sys

WIDGET = "jupyter.widget"


def written(value):
    return json.dumps(value, separators=(",", ":")).encode() + b"\n"


def registered(kind, name):
    return written({"call": "register", "kind": kind, "name": name})


def message(kind, content, buffers=None, **more):
    said = {"header": {"msg_type": kind}, "content": content, **more}
    if buffers:
        said["buffers"] = buffers
    return written(said)


def opened(comm, target, data=None, version=None, buffers=None):
    more = {"metadata": {"version": version}} if version else {}
    return message("comm_open", {"comm_id": comm, "target_name": target, "data": data or {}}, buffers, **more)


def told(comm, data, buffers=None):
    return message("comm_msg", {"comm_id": comm, "data": data}, buffers)


def closed(comm):
    return message("comm_close", {"comm_id": comm, "data": {}})


INFO = message("comm_info_request", {})


def comm_id(n):
    """An id as clients make them: 32 hexadecimal digits, in no order."""
    return "%032x" % (n * 0x9E3779B97F4A7C15F39CC0605CEDC835 + 0x1234567 & (1 << 128) - 1)


def uuid(n):
    digits = comm_id(n)
    return "-".join((digits[:8], digits[8:12], digits[12:16], digits[16:20], digits[20:]))


def slider(n):
    """The state of an IntSlider, without its float, its keys in order."""
    module, style = "@jupyter-widgets/controls", "IPY_MODEL_" + comm_id(n + 1 << 40)
    state = {
        **{"_dom_classes": [], "_model_module": module, "_model_module_version": "2.0.0", "_view_module": module},
        **{"_model_name": "IntSliderModel", "_view_count": None, "_view_module_version": "2.0.0"},
        **{"_view_name": "IntSliderView", "behavior": "drag-tap", "continuous_update": True, "disabled": False},
        **{"description": "slider %d" % n, "layout": "IPY_MODEL_" + comm_id(n + 1 << 20), "max": 100, "min": 0},
        **{"orientation": "horizontal", "readout": True, "readout_format": "d", "step": 1, "style": style},
        **{"tabbable": None, "tooltip": None, "value": n % 100},
    }
    return dict(sorted(state.items()))


def update(comm, state, paths=None, buffers=None):
    return told(comm, {"method": "update", "state": state, "buffer_paths": paths or []}, buffers)


def request(comm):
    return told(comm, {"method": "request_state"})


def widgets(states):
    yield registered("widget", WIDGET)
    for n, state in enumerate(states):
        yield opened(comm_id(n), WIDGET, {"state": state, "buffer_paths": []}, "2.0.0")


def sliders(n):
    return widgets(map(slider, range(n)))


def echoes(n):
    yield registered("echo", "echo")
    for i in range(n):
        yield opened(comm_id(i), "echo")


def keyed(keys, seed=1):
    """A state of so many keys, of values of many kinds."""
    some = random.Random(seed)

    def value():
        number, text = some.randrange(1 << 40), "text %d" % some.randrange(1 << 30)
        return some.choice((number, text, [some.randrange(9) for _ in range(4)], None, True))

    return {"key_%05d" % n: value() for n in range(keys)}


def launched(comms=100):
    yield registered("widget", WIDGET)
    for i in range(comms):
        yield written({"call": "launch", "name": WIDGET, "uuid": uuid(i), "state": slider(i)})


def unregistered_opens(n):
    return (opened(comm_id(i), "no.such.target", {"n": i}) for i in range(n))


def small_updates(n, comms=1000):
    """One line in 20 asks for the state."""
    for i in range(n):
        comm = comm_id(i % comms)
        yield request(comm) if i % 20 == 19 else update(comm, {"value": i % 101})


def key_updates(n, keys=200, comms=50):
    return (update(comm_id(i % comms), {"key_%05d" % (i * 7919 % keys): i}) for i in range(n))


def buffer_updates(n, comms=20, size=65536):
    some = random.Random(4)
    pool = [base64.b64encode(some.randbytes(size)).decode() for _ in range(8)]
    for i in range(n):
        yield update(comm_id(i % comms), {"width": i}, [["value"]], [pool[i % 8]])
        if i % 20 == 19:
            yield request(comm_id(i % comms))


def echoed(n, comms=10):
    nested = [1, 2, {"z": None, "a": True}]
    return (told(comm_id(i % comms), {"n": i, "text": "message %d é\n" % i, "list": nested}) for i in range(n))


def listed(n, comms=4000):
    for i in range(n):
        yield told(comm_id(i * 7919 % comms), {"n": i})
        if i % 100 == 99:
            yield INFO


def churned(n, standing=500):
    for i in range(n // 2):
        yield opened(comm_id(standing + i), "echo")
        yield closed(comm_id(i))


def pushes(n, comms=100):
    return (written({"call": "push", "id": uuid(i % comms), "state": {"value": i % 101}}) for i in range(n))


def keyed_widgets(keys=200, comms=50):
    return widgets(keyed(keys, seed) for seed in range(comms))


WORKLOADS = {  # its name: what sets up, and the loop of so many lines
    "w1": (lambda: iter(()), unregistered_opens),
    "w2": (lambda: sliders(1000), small_updates),
    "w3": (keyed_widgets, key_updates),
    "w3r": (keyed_widgets, lambda n: (request(comm_id(i % 50)) for i in range(n))),
    "w4": (lambda: sliders(20), buffer_updates),
    "w5": (lambda: echoes(10), echoed),
    "w6": (lambda: echoes(4000), listed),
    "w7": (lambda: echoes(500), churned),
    "w8": (launched, pushes),
}


def beside_a_dict(n):
    yield registered("widget", WIDGET)
    yield opened(comm_id(0), WIDGET, {"state": {"big": keyed(n), "k": 0}}, "2.0.0")


def beside_a_buffer(n):
    yield registered("widget", WIDGET)
    buffers = [base64.b64encode(bytes(n)).decode()]
    yield opened(comm_id(0), WIDGET, {"state": {"k": 0}, "buffer_paths": [["b"]]}, "2.0.0", buffers)


def one_key(_, lines):
    return (update(comm_id(0), {"k": i}) for i in range(lines))


def numbered(_, lines):
    return (told(comm_id(0), {"n": i}) for i in range(lines))


def moved(n, lines):
    return (update(comm_id(i * 7919 % n), {"value": i % 101}) for i in range(lines))


SIZES = (10, 100, 1000, 4000)
GROWTH = {  # beside n of what: the sizes, the loop's lines (none: n), what sets up, the loop
    "n open comms, open and close": (SIZES, 40_000, echoes, lambda n, lines: churned(lines, n)),
    "n open widgets, updates": (SIZES, 40_000, sliders, moved),
    "a state of n top-level keys, update of one": (
        (10, 100, 1000, 10_000),
        20_000,
        lambda n: keyed_widgets(n, 1),
        lambda n, lines: key_updates(lines, n, 1),
    ),
    "one dict of n keys below the top level": ((10, 100, 1000, 10_000), 20_000, beside_a_dict, one_key),
    "a buffer of n bytes, update of one key": ((1 << 10, 1 << 14, 1 << 18, 1 << 22), 20_000, beside_a_buffer, one_key),
    "n lines before it, echo": ((25_000, 100_000, 400_000), None, lambda n: echoes(1), numbered),
}


def script(name, lines):
    """The lines of a workload whose loop has so many."""
    setup, loop = WORKLOADS[name]
    yield from setup()
    yield from loop(lines)


def main(words):
    if len(words) != 2 or words[0] not in WORKLOADS or not words[1].isdigit():
        print(__doc__, f"NAME is one of {', '.join(WORKLOADS)}.", file=sys.stdout if "--help" in words else sys.stderr)
        return 0 if "--help" in words else 2
    sys.stdout.buffer.writelines(script(words[0], int(words[1])))
    return 0


if __name__ == "__main__":
    sys.exit(main(sys.argv[1:]))
