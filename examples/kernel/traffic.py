"""Widgets' traffic in a kernel's own process, as bench.py and instructions.py measure it: messages of a frontend off
the socket, values set in the kernel, and sliders made.

    traffic.py stock|proved COUNT CONNECTION_FILE     # is what instructions.py has valgrind run
"""

import asyncio
import gc
import sys

import ipywidgets
import traitlets
import zmq
from ipykernel.kernelapp import IPKernelApp

IDENTS = [b"traffic"]
WARM = 20  # messages before those that are counted
IS_OLD = int(ipywidgets.__version__.split(".")[0]) < 7


class Blob(ipywidgets.DOMWidget):
    value = traitlets.Bytes().tag(sync=True, from_json=lambda value, widget: bytes(value))


def cases(count, blobs, size):
    """What is moved: the kind of widget, and the values it takes, each another than the one before."""
    return {
        "int": (ipywidgets.IntSlider, [n % 100 + 1 for n in range(count)]),
        "float": (ipywidgets.FloatSlider, [n % 100 + 0.5 for n in range(count)]),
        "bytes": (Blob, [bytes([n % 250 + 1]) * size for n in range(blobs)]),
    }


def frames(session, comm_id, value):
    """A move of a slider, as the browser side of this ipywidgets sends it: by version 1 of the protocol, or by 2."""
    is_bytes = isinstance(value, bytes)
    state = {} if is_bytes else {"value": value}
    if IS_OLD:
        data = {"method": "backbone", "sync_data": state, "buffer_keys": ["value"] * is_bytes}
    else:
        data = {"method": "update", "state": state, "buffer_paths": [["value"]] * is_bytes}
    message = session.msg("comm_msg", {"comm_id": comm_id, "data": data})
    return [zmq.Frame(part) for part in session.serialize(message, IDENTS) + [value] * is_bytes]


async def heard(kernel, widget, values, begin, end):
    """Frames off the socket, each of them from `begin` to the callback, which calls `end`."""
    seen = 0

    def callback(change):
        nonlocal seen
        end()
        seen += 1

    widget.observe(callback, "value")
    for message in [frames(kernel.session, widget.comm.comm_id, value) for value in values]:
        begin()
        await kernel.dispatch_shell(message)
    widget.unobserve(callback, "value")
    assert seen == len(values) and widget.value == values[-1], f"{seen} of {len(values)} came"


async def said(_kernel, widget, values, begin, end):
    """Values set in the kernel, whose messages go to the socket."""
    for value in values:
        begin()
        widget.value = value
        end()


def made(count, begin, end):
    begin()
    sliders = [ipywidgets.IntSlider() for _ in range(count)]
    end()
    for slider in sliders:
        for part in (slider.layout, getattr(slider, "style", None), slider):
            if part is not None:
                part.close()


async def main(which, count, connection_file):
    """Plays each row in a kernel whose sockets nobody reads; callgrind dumps its instructions by its name."""
    import callgrind  # which instructions.py compiles

    gc.disable()
    app = IPKernelApp.instance(capture_fd_output=False)
    app.initialize(["-f", connection_file])
    sys.stdout, sys.stderr = sys.__stdout__, sys.__stderr__
    kernel, toggle = app.kernel, callgrind.toggle
    if which == "proved":
        import rolgunai.comms

        rolgunai.comms.install(kernel)
    cell = kernel.session.msg("execute_request", {"code": "", "silent": False})
    callgrind.start()
    for name, (kind, values) in cases(WARM + count, WARM + count, 2**17).items():
        for way, play in (("to the socket", said), ("off the socket", heard)):
            kernel.set_parent(IDENTS, cell)
            widget = kind()
            await play(kernel, widget, values[:WARM], toggle, toggle)
            gc.collect()
            callgrind.zero()
            await play(kernel, widget, values[WARM:], toggle, toggle)
            callgrind.dump(f"{name} {way}")
            widget.close()
    kernel.set_parent(IDENTS, cell)
    made(WARM, toggle, toggle)
    gc.collect()
    callgrind.zero()
    made(count, toggle, toggle)
    callgrind.dump("slider made")


if __name__ == "__main__":
    asyncio.run(main(sys.argv[1], int(sys.argv[2]), sys.argv[3]))
