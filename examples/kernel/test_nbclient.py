"""nbclient, a frontend without a browser, executes each notebook of examples/notebooks over the stock kernel and over
the proved one. Each cell's outputs, what the widgets hold at the end, and the widgets' states that nbclient saves with
the notebook have to be the same but for ids. nbclient reads version 2 of the widget protocol: where ipywidgets speaks
version 1, what it saves of the proved kernel is compared with what the stock kernel's widgets hold. The last line is 'N
passed, M failed'."""

import concurrent.futures
import difflib
import importlib.util
import json
import logging
import os
import pathlib
import queue
import re
import sys
import tempfile
import time
from typing import NamedTuple

from checks import check, counted
from frontend import NAME, SECONDS, write_spec

FOLDER = pathlib.Path(__file__).resolve().parents[1] / "notebooks"
PLOTLY = {"plotly": "python3-plotly", "numpy": "python3-numpy"}
BQPLOT = {"bqplot": "python3-bqplot", "numpy": "python3-numpy"}
# Each notebook, the modules that it needs with their packages, and the version of ipywidgets.
NOTEBOOKS = (
    ("sliders", {}, 6),
    ("output", {}, 6),
    ("image", {}, 6),
    ("interact", {}, 6),
    ("tqdm", {"tqdm": "python3-tqdm"}, 6),
    ("matplotlib", {"matplotlib": "python3-matplotlib"}, 6),
    ("plotly", PLOTLY, 7),
    ("plotly_nan", PLOTLY, 7),
    ("bqplot", BQPLOT, 7),
)
HELD = """
import ipywidgets, json
held = ipywidgets.Widget.get_manager_state(drop_defaults=False)["state"]
print(json.dumps([[model_id, model["state"], model.get("buffers")] for model_id, model in held.items()]))
"""
HEX = "[0-9a-f]"
UUID = rf"{HEX}{{8}}(-?){HEX}{{4}}\1{HEX}{{4}}\1{HEX}{{4}}\1{HEX}{{12}}"
ID = re.compile(rf"{UUID}(_\d+_\d+)?|0x{HEX}{{6,}}|ipykernel_\d+")
SAVED = "application/vnd.jupyter.widget-state+json"


class Executed(NamedTuple):
    """A notebook that was executed: a list of each cell's outputs, and lists of each widget's id and state."""

    outputs: list
    held: list
    saved: list


def is_here(module):
    return importlib.util.find_spec(module) is not None


def asked_each_second(get_msg):
    """A channel's `get_msg`, asked anew each second: it may not wake for a message while its socket sends,
    as nbclient's Output widget has it do."""

    async def get(timeout=None):
        end = None if timeout is None else time.monotonic() + timeout
        while True:
            try:
                return await get_msg(timeout=1 if end is None else max(0, min(1, end - time.monotonic())))
            except queue.Empty:
                if end is not None and time.monotonic() >= end:
                    raise

    return get


def client_class():
    from nbclient import NotebookClient

    class Client(NotebookClient):
        async def async_start_new_kernel_client(self):
            client = await super().async_start_new_kernel_client()
            client.shell_channel.get_msg = asked_each_second(client.shell_channel.get_msg)
            return client

        def on_comm_open_jupyter_widget(self, msg):
            if "state" in msg["content"]["data"]:  # not in version 1 of the widget protocol
                return super().on_comm_open_jupyter_widget(msg)

    return Client


def executed(name, kernel, specs):
    """Executes a notebook over a kernel."""
    import nbformat
    from jupyter_client.kernelspec import KernelSpecManager
    from jupyter_client.manager import AsyncKernelManager

    notebook = nbformat.read(FOLDER / f"{name}.ipynb", as_version=4)
    cells = [cell for cell in notebook.cells if cell.cell_type == "code"]
    last = nbformat.v4.new_code_cell(HELD)
    notebook.cells.append(last)
    manager = AsyncKernelManager(
        kernel_name=kernel,
        kernel_spec_manager=KernelSpecManager(kernel_dirs=[specs]),
        transport="ipc",  # no port that another kernel may take meanwhile
        ip=os.path.join(specs, f"{name}-{kernel}"),
    )
    environment = {**os.environ, "ROLGUNAI_BROWSER_PROTOCOL": "2", "PYTHONHASHSEED": "0"}
    client_class()(notebook, km=manager, timeout=SECONDS).execute(env=environment, cwd=specs, cleanup_kc=True)
    saved = notebook.metadata.get("widgets", {}).get(SAVED, {}).get("state", {})
    return Executed(
        [cell.outputs for cell in cells],
        json.loads("".join(output.text for output in last.outputs)),
        [[model_id, model["state"], model.get("buffers")] for model_id, model in saved.items()],
    )


def lines(value):
    """A value's JSON, with ids, addresses and the process's number in it numbered as they come."""
    numbers = {}

    def number(found):
        return f"id {numbers.setdefault(found[0], len(numbers))}"

    return ID.sub(number, json.dumps(value, indent=1, sort_keys=True)).splitlines()


def same(what, ours, stock):
    """Checks that both are the same but for their ids; shows where they differ."""
    differences = difflib.unified_diff(lines(stock), lines(ours), "stock", "proved", lineterm="", n=2)
    check(f"{what}: the same as over the stock kernel", [line[:200] for line in differences][:40], [])


def states(rows):
    """The states of widgets by their ids, in the order of their making, without the buffers."""
    return [[model_id, state] for model_id, state, _ in rows]


def compare(name, stock, ours, saves_stock):
    same(f"{name}: outputs", ours.outputs, stock.outputs)
    same(f"{name}: what the widgets hold", ours.held, stock.held)
    if saves_stock:
        same(f"{name}: what is saved", ours.saved, stock.saved)
    else:
        live = {row[0] for row in ours.held}
        same(f"{name}: what is saved", states(row for row in ours.saved if row[0] in live), states(stock.held))
    check(f"{name}: there are widgets", len(ours.held) > 0, True)


def runnable(version):
    """The names of the notebooks that can be executed here; tells of the others what is missing."""
    named = {name for name, _, _ in NOTEBOOKS}
    check("each notebook is in the table", {path.stem for path in FOLDER.glob("*.ipynb")}, named)
    for name, needed, least in NOTEBOOKS:
        missing = [package for module, package in needed.items() if not is_here(module)]
        missing += [f"ipywidgets {least}"] * (version < least)
        if missing:
            print(f"skipped: examples/notebooks/{name}.ipynb: missing: {', '.join(missing)}")
        else:
            yield name


def main():
    missing = [f"python3-{module}" for module in ("nbclient", "nbformat", "ipywidgets") if not is_here(module)]
    if missing:
        print(f"skipped: notebooks by nbclient: missing: {', '.join(missing)}")
        return counted()
    import ipywidgets

    logging.disable(logging.WARNING)  # comm targets that nbclient hasn't
    version = int(ipywidgets.__version__.split(".")[0])
    with tempfile.TemporaryDirectory() as specs, concurrent.futures.ThreadPoolExecutor(os.cpu_count()) as pool:
        write_spec(pathlib.Path(specs, NAME))
        rows = [
            (name, *(pool.submit(executed, name, kernel, specs) for kernel in ("python3", NAME)))
            for name in runnable(version)
        ]
        for name, stock, ours in rows:
            try:
                compare(name, stock.result(), ours.result(), version >= 7)
            except Exception as error:
                check(f"{name}: no error", f"{type(error).__name__}: {error}"[:2000], None)
    return counted()


if __name__ == "__main__":
    sys.exit(main())
