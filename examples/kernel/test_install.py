"""python -m rolgunai.kernel install: what the kernelspec says, and that Jupyter starts the kernel by it; and
`install()` and `uninstall()` in kernels that run. The last line is 'N passed, M failed'."""

import contextlib
import json
import os
import pathlib
import subprocess
import sys
import tempfile
import traceback

from checks import check, counted
from frontend import Frontend, printed_by
from number_texts import Number

PACKAGE = os.environ["ROLGUNAI_PACKAGE"]
STAND_IN = str(pathlib.Path(__file__).resolve().parents[2] / "bindings/python/stand_in")
FOUND = os.environ.get("PYTHONPATH")  # other packages than the machine's
PATHS = os.pathsep.join([PACKAGE, FOUND] if FOUND else [PACKAGE])
# Where the kernel's comms are those of `comm`, and where they aren't, without that package and with it beside them.
ALL_PATHS = [PATHS] if FOUND else [PATHS, os.pathsep.join([PACKAGE, STAND_IN])]
QUIET = "ignore::DeprecationWarning"  # ipykernel's of its own class of comms, since 6.18
USED = "from rolgunai.comms import CommManager; print(isinstance(get_ipython().kernel.comm_manager, CommManager))"


def readme():
    """The lines of Python of its 'In your kernel'."""
    page = (pathlib.Path(__file__).resolve().parents[2] / "README.md").read_text()
    code = page.partition("## In your kernel")[2].partition("\n    import ")[2].partition("\n\n")[0]
    return "import " + code.replace("\n    ", "\n")


def kernelspec():
    """What `python -m rolgunai.kernel install` writes, and the kernel that Jupyter starts by it."""
    with tempfile.TemporaryDirectory() as prefix:
        words = [sys.executable, "-B", "-m", "rolgunai.kernel", "install", "--prefix", prefix]
        environment = {**os.environ, "PYTHONPATH": PATHS}
        subprocess.run(words, env=environment, cwd=prefix, check=True, stdout=subprocess.DEVNULL)
        kernels = pathlib.Path(prefix, "share/jupyter/kernels")
        spec = json.loads((kernels / "rolgunai/kernel.json").read_text())
        argv = [sys.executable, "-Xfrozen_modules=off", "-m", "rolgunai.kernel", "-f", "{connection_file}"]
        check("it names this Python and the package alone", spec["argv"], argv)
        check("Jupyter shows", (spec["display_name"], spec["language"]), ("Python, proved comms", "python"))
        with contextlib.closing(Frontend("rolgunai", kernels=kernels, PYTHONPATH=PATHS)) as front:
            check("its comm manager", front.run(USED)[0], "True\n")
            printed, came = front.run(
                "import ipywidgets; s = ipywidgets.IntSlider(3); print(s.comm.comm_id == s.model_id)"
            )
            check("a slider", (printed, [got.kind for got in came]), ("True\n", ["comm_open"] * 3))
            again = "import rolgunai.comms; print(rolgunai.comms.install() is get_ipython().kernel.comm_manager)"
            check("install() again gives the same", front.run(again)[0], "True\n")


def in_a_stock_kernel():
    """`install()` in a stock kernel that runs."""
    with contextlib.closing(Frontend("python3", PYTHONPATH=PATHS)) as stock:
        check("the README's lines", [got.kind for got in stock.run(readme())[1]], ["comm_open"] * 3)
        stock.send("comm_open", {"comm_id": "d", "target_name": "doubler", "data": {}})
        came = stock.send("comm_msg", {"comm_id": "d", "data": {"n": 21}})
        check("its target answers", [got.content["data"] for got in came], [{"twice": 42}])
    with contextlib.closing(Frontend("python3", PYTHONPATH=PATHS)) as stock:
        printed = stock.run("import rolgunai.comms; rolgunai.comms.install();" + USED)[0]
        check("install()", printed, "True\n")
        printed, came = stock.run("import ipywidgets; s = ipywidgets.IntSlider(3)")
        check("a slider there", (printed, len(came)), ("", 3))
        update = {"method": "update", "state": {"value": 7}, "buffer_paths": []}
        stock.send("comm_msg", {"comm_id": came[-1].content["comm_id"], "data": update})
        check("it moves", stock.run("print(s.value)")[0], "7\n")
    with contextlib.closing(Frontend("python3", PYTHONPATH=PATHS)) as late:
        code = "import ipywidgets, rolgunai.comms; s = ipywidgets.IntSlider(3); rolgunai.comms.install()"
        wanted = "RuntimeError: 3 comms are open: install() comes before them, in a fresh kernel"
        check("not where comms are open", late.run(code)[0], wanted)


# What `install()` leaves of ipykernel's names, and what its own stand for: each is true.
ONE_FRONT = (
    "isinstance(manager, rolgunai.comms.CommManager)",
    "isinstance(manager, ipykernel.comm.CommManager)",
    "issubclass(ipykernel.comm.Comm, rolgunai.comms.Comm)",
    "isinstance(slider.comm, rolgunai.comms.Comm)",
    "isinstance(own, rolgunai.comms.Comm)",
    "isinstance(own, ipykernel.comm.Comm)",
    "isinstance(own, traitlets.HasTraits) and own.n == 3",
    "unittest.mock.MagicMock(spec=ipykernel.comm.Comm).comm_id is not None",
    "slider.comm.comm_id in manager.comms and own.comm_id in manager.comms",
    "manager is get_ipython().kernel.comm_manager is rolgunai.comms.install()",
    "manager.kernel is own.kernel is get_ipython().kernel",
    "manager in get_ipython().configurables",
    "slider.comm.comm_id.isalnum()",
)
OWN = """
import ipykernel.comm, ipywidgets, rolgunai.comms, traitlets, unittest.mock
manager = rolgunai.comms.install()

class Own(ipykernel.comm.Comm):
    n = traitlets.Int(3)

own, slider = Own(target_name="t"), ipywidgets.IntSlider()
"""


def one_front():
    for paths in ALL_PATHS:
        with contextlib.closing(Frontend("python3", PYTHONPATH=paths, PYTHONWARNINGS=QUIET)) as front:
            check("the classes are made", front.run(OWN)[0], "")
            for words in ONE_FRONT:
                check(f"{words}, over {paths}", front.run(f"print({words})")[0], "True\n")


BACK = """
comms = [manager.comms[comm_id] for comm_id in list(manager.comms)]
try:
    rolgunai.comms.uninstall()
except RuntimeError as error:
    print(error)
ipywidgets.Widget.close_all() if hasattr(ipywidgets.Widget, "close_all") else None
for comm in comms:
    comm.close()
manager.register_target("late", print)
rolgunai.comms.uninstall()
stock = get_ipython().kernel.comm_manager
print(type(stock).__module__, stock in get_ipython().configurables, manager in get_ipython().configurables)
print(sorted(stock.targets) == sorted(manager.targets), "late" in stock.targets)
print(get_ipython().kernel.shell_handlers["comm_msg"].__self__ is stock)
"""


def taken_back():
    with contextlib.closing(Frontend("python3", PYTHONPATH=PATHS, PYTHONWARNINGS=QUIET)) as front:
        front.run(OWN)
        wanted = ["4 comms are open: close them first", "ipykernel.comm.manager True False", "True True", "True"]
        check("uninstall(), where no comm is open", front.run(BACK)[0].splitlines(), wanted)
        printed, came = front.run(
            "s = ipywidgets.IntSlider(4); print(s.comm.comm_id in stock.comms, len(manager.comms))"
        )
        check("the kernel's own has the comms", (printed, {got.kind for got in came}), ("True 0\n", {"comm_open"}))
        update = {"method": "update", "state": {"value": 7}, "buffer_paths": []}
        if front.speaks_old_widgets():
            update = {"method": "backbone", "sync_data": {"value": 7}, "buffer_keys": []}
        front.send("comm_msg", {"comm_id": came[-1].content["comm_id"], "data": update})
        check("which hear", front.run("print(s.value)")[0], "7\n")
        check("comm_info is its own", came[-1].content["comm_id"] in front.info(), True)
        printed = front.run("try: rolgunai.comms.uninstall()\nexcept RuntimeError as error: print(error)")[0]
        check("not twice", printed, "nothing is installed\n")
        front.run("for comm in list(stock.comms.values()): comm.close()")
        check("it is installed again", front.run("manager = rolgunai.comms.install();" + USED)[0], "True\n")


NEWER = """
import ipykernel, rolgunai.comms
ipykernel.version_info, ipykernel.__version__ = (99, 1, 0), "99.1.0"
rolgunai.comms.install(); rolgunai.comms.uninstall(); rolgunai.comms.install()
"""


def newer_kernels():
    with contextlib.closing(Frontend("python3", PYTHONPATH=PATHS)) as front:
        words = "rolgunai was tried with ipykernel up to 7.2; this is 99.1.0"
        check("a newer ipykernel is told of once", front.run(NEWER)[0].count(words), 1)
        check("and none else", front.run("import rolgunai.comms; rolgunai.comms.install()")[0].count("tried with"), 0)


# Two kernels in one process: what each sends, and what its comms hear.
TWO = """
import sys, warnings
warnings.simplefilter("ignore")
from ipykernel.inprocess import InProcessKernelManager
import rolgunai.comms

kernels = []
for n in range(2):
    managed = InProcessKernelManager()
    managed.start_kernel()
    client = managed.client()
    client.start_channels()
    kernels.append((managed.kernel, client, rolgunai.comms.install(managed.kernel)))
(one, _, first), (other, _, second) = kernels
print(first is not second, first.kernel is one, second.kernel is other, one.comm_manager is first)
for number, (kernel, client, manager) in enumerate(kernels):
    seen, send = [], kernel.session.send
    kernel.session.send = lambda stream, kind, *parts, **keys: seen.append(kind) or send(stream, kind, *parts, **keys)
    comm = rolgunai.comms.Comm(target_name="t", primary=False)
    comm.kernel = kernel
    manager.register_comm(comm)
    comm.open({"n": number})
    heard = []
    comm.on_msg(lambda message: heard.append(message["content"]["data"]))
    manager.comm_msg(None, None, {"content": {"comm_id": comm.comm_id, "data": number}})
    print(seen.count("comm_open"), heard == [number], list(manager.comms) == [comm.comm_id])
    kernel.session.send = send
"""


def two_kernels():
    words = [sys.executable, "-B", "-Xfrozen_modules=off", "-c", TWO]
    ran = subprocess.run(words, env={**os.environ, "PYTHONPATH": PATHS}, capture_output=True, text=True, timeout=120)
    check("each has its own", ran.stdout.splitlines(), ["True True True True", "1 True True", "1 True True"])
    if ran.returncode:
        check("two kernels", ran.stderr, "")


FAILING = """
import rolgunai.comms
manager = rolgunai.comms.install()

def opened(comm, message):
    comm.on_msg(lambda message: 1 // 0)
    if message["content"]["data"]:
        raise ValueError("as the test wants it")

manager.register_target("fails", opened)
"""


def errors_in_callbacks():
    """Where stock shows the user an error in a callback, since ipykernel 6.18, it is shown."""
    stock, ours = [Frontend("python3", PYTHONPATH=PATHS) for _ in range(2)]
    with contextlib.closing(stock), contextlib.closing(ours):
        stock.run(FAILING.replace("rolgunai.comms.install()", "get_ipython().kernel.comm_manager"))
        ours.run(FAILING)
        for kind, content in (
            ("comm_open", {"comm_id": "a", "target_name": "fails", "data": {}}),
            ("comm_msg", {"comm_id": "a", "data": {}}),
            ("comm_open", {"comm_id": "b", "target_name": "fails", "data": {"n": 1}}),
            ("comm_open", {"comm_id": "c", "target_name": "nobody", "data": {}}),
            ("comm_msg", {"comm_id": "d", "data": {}}),
        ):
            shown = [
                [line for line in printed_by(front.send(kind, content)).splitlines() if " " != line[:1]]
                for front in (stock, ours)
            ]
            check(f"{kind} {content}", shown[1], shown[0])


def behind_comm():
    """`install()` where there is the package `comm`, or its stand-in: what takes its comms from there."""
    with contextlib.closing(Frontend("python3", PYTHONPATH=ALL_PATHS[-1])) as front:
        front.run("import comm, rolgunai.comms; manager = rolgunai.comms.install()")
        code = "made = comm.create_comm('front', data=[0.5], metadata={'m': 1}, buffers=[b'x'], comm_id='ABCDEF')"
        content = {"comm_id": "ABCDEF", "data": [Number("0.5")], "target_name": "front", "target_module": None}
        check("an open", [tuple(got) for got in front.run(code)[1]], [("comm_open", content, {"m": 1}, [b"x"])])
        check("it is open", front.info(), {"ABCDEF": "front"})
        front.run("made.on_msg(lambda message: made.send({'heard': message['content']['data']}))")
        came = front.send("comm_msg", {"comm_id": "ABCDEF", "data": "text"})
        check("it hears and says", [got.content["data"] for got in came], [{"heard": "text"}])
        code = "print(comm.get_comm_manager() is manager is get_ipython().kernel.comm_manager)"
        check("one manager", front.run(code)[0], "True\n")
        came = front.run("made.close({'bye': 1})")[1]
        check("it closes", [(got.kind, got.content["data"]) for got in came], [("comm_close", {"bye": 1})])


def main():
    for part in (
        kernelspec,
        in_a_stock_kernel,
        behind_comm,
        one_front,
        taken_back,
        newer_kernels,
        two_kernels,
        errors_in_callbacks,
    ):
        try:
            part()
        except Exception:
            check(f"{part.__name__} ends in no error", traceback.format_exc(), None)
    return counted()


if __name__ == "__main__":
    sys.exit(main())
