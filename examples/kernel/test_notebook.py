"""A notebook in a headless browser, over the stock kernel and over the proved one in the same run: what the page shows
and what the kernel has, step by step, has to be what a user expects, and so in both. The last line is 'N passed, M
failed'. --packages says only what is missing, and --picture FILE writes a screenshot of the proved kernel's page.
"""

import contextlib
import importlib.util
import os
import shutil
import sys
import tempfile
import traceback

from checks import check, counted

MODULES = {"notebook": "python3-notebook", "selenium": "python3-selenium", "tqdm": "python3-tqdm"}
MODULES |= {"matplotlib": "python3-matplotlib", "ipywidgets": "python3-ipywidgets"}
PROGRAMS = {"jupyter-notebook": "jupyter-notebook", "chromium": "chromium", "chromedriver": "chromium-driver"}
EXTENSION = "/usr/share/jupyter/nbextensions/jupyter-js-widgets/extension.js"

CELLS = (
    """
import ipywidgets
from IPython.display import display
slider = ipywidgets.IntSlider(value=3, max=10, description="whole")
display(slider)
""",
    """
part = ipywidgets.FloatSlider(value=0.5, max=1.0, step=0.25, description="fraction")
display(part)
""",
    """
import traitlets
one = ipywidgets.IntSlider(description="one", max=10)
other = ipywidgets.IntSlider(description="other", max=10)
link = traitlets.link((one, "value"), (other, "value"))
display(one, other)
""",
    """
button, output = ipywidgets.Button(description="press"), ipywidgets.Output()

def pressed(_):
    with output:
        print("pressed")

button.on_click(pressed)
display(button, output)
""",
    """
text = ipywidgets.Text(value="hello")
display(text)
""",
    """
import types
if ipywidgets.__version__ < "7":  # tqdm wants a style, which came with that
    ipywidgets.FloatProgress.style = types.SimpleNamespace()
from tqdm.notebook import tqdm
bar = tqdm(range(5), desc="steps")
for _ in bar:
    pass
""",
    """
%matplotlib notebook
import matplotlib.pyplot as plt
figure = plt.figure(figsize=(4, 2))
lines = plt.plot([1, 3, 2])
""",
)
# What is shown besides: a widget that refuses odd numbers. Under the stock kernel the page keeps what was typed.
EVEN = """
class Even(ipywidgets.IntText):
    @traitlets.validate("value")
    def _is_even(self, proposal):
        if proposal["value"] % 2:
            raise traitlets.TraitError("odd")
        return proposal["value"]
even = Even(value=2)
"""
TYPED = "return document.querySelector(arguments[0]).value"
# As the page has them by ipywidgets 6 and by 8.
HANDLE, READOUT = " :is(.ui-slider-handle, .noUi-handle)", " .widget-readout"
AREA = " :is(.widget-area, .output_area)"
# Whether the figure's canvas has a line in matplotlib's first colour.
DRAWN = """
    return Array.from(document.querySelectorAll(arguments[0] + " canvas")).some(function (canvas) {
      if (!canvas.width) { return false; }
      var data = canvas.getContext("2d").getImageData(0, 0, canvas.width, canvas.height).data;
      for (var at = 0; at < data.length; at += 4) {
        if (data[at] === 31 && data[at + 1] === 119 && data[at + 2] === 180) { return true; }
      }
      return false;
    });
"""


# The open comms by their targets, but for those by which a page that starts asks for the kernel's version of widgets
# (jupyter.widget.version), or for their states (jupyter.widget.control).
COUNTS = """
import collections
names = [comm.target_name for comm in get_ipython().kernel.comm_manager.comms.values()]
print(sorted(collections.Counter(name for name in names if not name.startswith("jupyter.widget.")).items()))
"""


def missing():
    found = [package for module, package in MODULES.items() if importlib.util.find_spec(module) is None]
    found += [package for program, package in PROGRAMS.items() if shutil.which(program) is None]
    return found + ["jupyter-nbextension-jupyter-js-widgets"] * (not os.path.exists(EXTENSION))


def steps(page):
    """What a user does, and what comes of it: a name, what was found, and what is expected."""
    from selenium.webdriver.common.keys import Keys

    whole, fraction, linked, pressed, typed, bar, plot = map(page.cell, range(len(CELLS)))
    value = "print({}.value)".format
    yield "the slider", page.shows(whole + READOUT, "3"), "3"
    page.keys(whole + HANDLE, Keys.ARROW_RIGHT, Keys.ARROW_RIGHT)
    yield "moved by the keyboard", page.shows(whole + READOUT, "5"), "5"
    yield "its value in the kernel", page.prints(value("slider"), "5\n"), "5\n"
    page.run("slider.value = 9")
    yield "set in the kernel", page.shows(whole + READOUT, "9"), "9"
    page.run("slider.max = 8")
    yield "clamped in the kernel", page.shows(whole + READOUT, "8"), "8"
    page.keys(fraction + HANDLE, Keys.ARROW_RIGHT)
    yield "the float slider moved", page.shows(fraction + READOUT, "0.75"), "0.75"
    yield "its value in the kernel", page.prints(value("part"), "0.75\n"), "0.75\n"
    page.keys(linked + HANDLE, Keys.ARROW_RIGHT, Keys.ARROW_RIGHT, Keys.ARROW_RIGHT)
    yield "two linked sliders", page.show(linked + READOUT, ["3", "3"]), ["3", "3"]
    page.click(pressed + " .widget-button")
    yield "a button with its output", page.shows(pressed + AREA + " .output_stdout", "pressed"), "pressed"
    yield "the text", page.script(TYPED, typed + " input"), "hello"
    page.keys(typed + AREA + " input", Keys.END, " you")
    yield "typed", page.prints(value("text"), "hello you\n"), "hello you\n"
    yield "tqdm's bar", page.show(bar + " .widget-html", 2, len)[0][:11], "steps: 100%"
    filled = "return document.querySelector(arguments[0]).style.width"
    yield "it is full", page.script(filled, bar + " .progress-bar"), "100%"
    yield "matplotlib's figure", page.finds(lambda: page.script(DRAWN, plot)), True
    yield "its comm", page.run(
        "print(sum(c.target_name == 'matplotlib' for c in get_ipython().kernel.comm_manager.comms.values()))"
    ), "1\n"
    page.picture()
    page.save()
    page.reload()
    yield "reloaded: the slider", page.shows(whole + READOUT, "8"), "8"
    yield "the linked ones", page.show(linked + READOUT, ["3", "3"]), ["3", "3"]
    yield "the text", page.finds(lambda: page.script(TYPED, typed + AREA + " input")), "hello you"
    page.keys(whole + HANDLE, Keys.ARROW_LEFT)
    yield "moved again", page.shows(whole + READOUT, "7"), "7"
    yield "its value in the kernel", page.prints(value("slider"), "7\n"), "7\n"
    page.break_websocket()
    page.keys(whole + HANDLE, Keys.ARROW_LEFT)
    yield "after the websocket broke", page.prints(value("slider"), "6\n"), "6\n"
    page.run("slider.value = 2")
    yield "and from the kernel", page.shows(whole + READOUT, "2"), "2"


def refused(page, seconds):
    """What the page shows of a number that the kernel's widget refuses: as soon as it is put right, or after so long."""
    from selenium.webdriver.common.keys import Keys

    page.run(EVEN)
    page.add_cell("display(even)")
    box = page.cell(len(CELLS)) + AREA + " input"
    page.keys(box, Keys.CONTROL + "a", "5", Keys.TAB)
    page.show_value(box, "2", seconds)
    return page.script(TYPED, box), page.run("print(even.value)")


def played(server, kernel, picture):
    """Plays the steps over a kernel, and checks each; gives what was found."""
    from browser import Page

    found = []
    page = Page(server.address(kernel), picture if kernel == "rolgunai" else None)
    try:
        page.run("import ipywidgets")
        page.reload()  # the browser side asks for the kernel's version of widgets when it starts
        page.run_cells()
        for name, got, wanted in steps(page):
            check(f"{kernel}: {name}", got, wanted)
            found.append((name, got))
        shown, seconds = ("5", 5) if kernel == "python3" else ("2", 60)
        check(f"{kernel}: a number that the widget refuses", refused(page, seconds), (shown, "2\n"))
    except Exception:
        check(f"{kernel}: no error", traceback.format_exc(), None)
    found.append(("comms", page.run(COUNTS)))
    found.append(("errors on the page", page.errors()))
    page.end()
    return found


def main(*words):
    if missing():
        print(f"skipped: a notebook in a browser: missing: {', '.join(missing())}")
        return counted() if words != ("--packages",) else 1
    if words == ("--packages",):
        return 0
    from browser import Server

    picture = words[1] if words[:1] == ("--picture",) else None
    with tempfile.TemporaryDirectory(ignore_cleanup_errors=True) as folder:
        with contextlib.closing(Server(folder, CELLS, os.environ["ROLGUNAI_PACKAGE"])) as server:
            stock, proved = (played(server, kernel, picture) for kernel in ("python3", "rolgunai"))
            check("the pages agree", proved, stock)
            check("no error on the page", proved[-1][1], [])
    return counted()


if __name__ == "__main__":
    sys.exit(main(*sys.argv[1:]))
