"""JupyterLab of Debian testing in a headless browser, over its stock ipykernel and over the proved comms: its comm
messages run on a subshell's thread, beside cells. A slider is moved while a cell runs, the page is loaded again while
the kernel makes widgets (in how many seconds the slider is back is told), another page shows the same kernel, and the
kernel starts again. Over both a user is to find the same, but for those seconds. The last line is 'N passed, M failed'.

ROLGUNAI_NEWER=FOLDER test_jupyterlab.py [--picture FILE], as root, where examples/kernel/fetch_newer filled the folder;
--picture writes a screenshot of the proved kernel's page.
"""

import contextlib
import importlib.util
import os
import pathlib
import shutil
import sys
import tempfile
import time
import traceback
from typing import NamedTuple

from checks import check, counted

CELLS = (
    """
import threading, time
import ipywidgets
slider = ipywidgets.IntSlider(value=3, max=10, description="whole")
part = ipywidgets.FloatSlider(value=0.5, max=1, step=0.25, description="fraction")
display(slider, part)
""",
    """
# It computes until the slider was moved twice meanwhile.
seen, ends = [], time.monotonic() + 60
def moved(change):
    seen.append((change["new"], threading.current_thread().name[:8]))
slider.observe(moved, "value")
while len(seen) < 2 and time.monotonic() < ends:
    sum(range(100_000))
print(*seen)
""",
)
MANY = """
import collections
asked, kernel = collections.Counter(), get_ipython().kernel
handler, send = kernel.shell_handlers["comm_msg"], kernel.session.send
def counts(stream, ident, message):
    data = message["content"].get("data")
    asked[data.get("method") if isinstance(data, dict) else None] += 1
    return handler(stream, ident, message)
def sends(stream, kind, content=None, *words, **keys):
    asked["answers"] += kind == "comm_msg" and "update_states" in str(content)[:200]
    return send(stream, kind, content, *words, **keys)
kernel.shell_handlers["comm_msg"], kernel.session.send = counts, sends
many, going = [ipywidgets.IntSlider(at) for at in range(100)], True
def work():
    while going:
        began = time.monotonic()
        bar = ipywidgets.IntProgress(1)
        took = time.monotonic() - began
        time.sleep(0.01)
        bar.close(); bar.layout.close(); bar.style.close()
        time.sleep(2 * took)  # so that a busy page keeps up
worker = threading.Thread(target=work)
worker.start()
"""
LOADS = 5
AWAITS = 120  # JupyterLab waits 4 seconds for all states; then it asks for them one by one


class Load(NamedTuple):
    """In how many seconds a slider was back, or None; how often the page asked for all states, how often it was told
    them, and for how many it asked one by one."""

    seconds: float
    asked: int
    told: int
    one_by_one: int


def missing():
    tree = pathlib.Path(os.environ.get("ROLGUNAI_NEWER", "/nowhere")).resolve() / "testing"
    found = ["ROLGUNAI_NEWER names no folder that has Debian testing's JupyterLab"] * (not (tree / "fetched").exists())
    found += ["it is run by chroot, as root"] * (os.geteuid() != 0)
    found += ["python3-selenium"] * (importlib.util.find_spec("selenium") is None)
    return found + [name for name in ("chromium", "chromedriver") if shutil.which(name) is None]


def loaded_again(page, address):
    """Loads the page, and looks from when it is connected with the kernel."""
    page.run("asked.clear()")
    page.open(address)
    began = time.monotonic()
    while not (is_back := page.handles()) and time.monotonic() < began + AWAITS:
        time.sleep(0.05)
    took = round(time.monotonic() - began, 1) if is_back else None
    said = page.run("print(asked['request_states'], asked['answers'], asked['request_state'])")
    return Load(took, *map(int, said.split()))


def loads(page, address, found):
    """Loads the page again and again while the kernel makes widgets, and adds what is found."""
    page.do("docmanager:save")
    page.run(MANY)
    while len(found) < LOADS:
        found.append(loaded_again(page, address))
    page.run("going = False; worker.join()")


def steps(page, server, kernel):
    """What a user does, and what comes of it: a name, what was found, and what is expected."""
    from lab import Page
    from selenium.webdriver.common.keys import Keys

    page.cell(0)
    yield "the slider", page.shows("3"), "3"
    page.cell(1, waits=False)
    page.moved(Keys.ARROW_RIGHT, Keys.ARROW_RIGHT)
    page.rest()
    yield "moved while a cell runs", page.run("print(*seen)"), "(4, 'subshell') (5, 'subshell')\n"
    yield "it shows that", page.shows("5"), "5"
    page.picture()
    page.run("slider.value = 9")
    yield "set in the kernel", page.shows("9"), "9"
    page.do("docmanager:save")
    with contextlib.closing(Page(server.address(kernel))) as other:
        yield "another page of this kernel", other.shows("9"), "9"
        other.moved(Keys.ARROW_LEFT)
        yield "moves it", page.shows("8"), "8"
        page.moved(Keys.ARROW_LEFT)
        yield "and is told of moves", other.shows("7"), "7"
        yield "so is the kernel", page.prints("print(slider.value)", "7\n"), "7\n"
    page.restart()
    page.cell(0)
    yield "after a restart", page.shows("3"), "3"
    page.moved(Keys.ARROW_RIGHT)
    yield "it moves", page.prints("print(slider.value)", "4\n"), "4\n"
    yield "which it shows", page.shows("4"), "4"


def played(server, kernel, picture):
    """Plays the steps over a kernel, and checks each; gives the loads of the page. The stock one of ipykernel 7.2 at
    times stops answering amid this."""
    from lab import Page
    from selenium.common.exceptions import WebDriverException

    page, found = Page(server.address(kernel, "?reset"), picture), []  # with no tabs of another page
    stops = () if kernel == "rolgunai" else (TimeoutError, WebDriverException)
    try:
        with contextlib.suppress(*stops):
            page.rest()
            for name, got, wanted in steps(page, server, kernel):
                check(f"{kernel}: {name}", got, wanted)
            check(f"{kernel}: no error on the page", page.errors(), [])
            loads(page, server.address(kernel), found)
    except Exception:
        check(f"{kernel}: no error", traceback.format_exc(), None)
    page.close()
    return found


def main(*words):
    if missing():
        print(f"skipped: JupyterLab in a browser: missing: {', '.join(missing())}")
        return counted()
    from lab import Server

    picture = words[1] if words[:1] == ("--picture",) else None
    tree = str(pathlib.Path(os.environ["ROLGUNAI_NEWER"]).resolve() / "testing")
    with tempfile.TemporaryDirectory(ignore_cleanup_errors=True) as folder:
        with contextlib.closing(Server(tree, folder, CELLS, os.environ["ROLGUNAI_PACKAGE"])) as server:
            stock, proved = played(server, "python3", None), played(server, "rolgunai", picture)
    for kernel, found in (("python3", stock), ("rolgunai", proved)):
        stopped = "and the kernel stopped answering" if len(found) < LOADS else ""
        print(f"{kernel}: the page loaded beside a thread that makes widgets:", *found, stopped)
    check("loads that aren't told all states", [load for load in proved if not load.told >= load.asked > 0], [])
    check("loads that bring no slider back", [load for load in proved if load.seconds is None], [])
    check("loads", len(proved), LOADS)
    return counted()


if __name__ == "__main__":
    sys.exit(main(*sys.argv[1:]))
