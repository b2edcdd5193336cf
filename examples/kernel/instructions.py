#!/usr/bin/python3
"""Thousands of instructions of the kernel's thread (valgrind's callgrind) for a widget's message, in the stock kernel
and in the proved one: to two or three in a hundred the same figures each time, whatever else the machine does.

    examples/kernel/instructions.py PACKAGE [--count N]      # PACKAGE: the folder where tools/c_library leaves rolgunai

The rows, of traffic.py: an int, a float or 128 KiB of bytes that is set in the kernel, until its message is on the
socket; the same in a frontend's message, from frames off the socket to the callback; an IntSlider that is made. Each is
the mean of N (20), with no garbage collection, after 20 that aren't counted. A block of 2 KiB and more that is copied
or cleared at once (`rep movsb`) counts one instruction a byte.

It runs with the packages that this Python has, and with those in the folder that ROLGUNAI_NEWER names, as fetch_newer
fills it; it says which are missing."""
import argparse
import os
import pathlib
import re
import shutil
import subprocess
import sys
import sysconfig
import tempfile
from concurrent.futures import ThreadPoolExecutor

TRAFFIC = pathlib.Path(__file__).resolve().parent / "traffic.py"
KERNELS = ("stock", "proved")
INCLUDE = sysconfig.get_paths()["include"]
VALGRIND = ["valgrind", "--tool=callgrind", "--instr-atstart=no", "--collect-atstart=no", "--combine-dumps=yes"]
PART = re.compile(r"^desc: Trigger: Client Request: (.*)$(?s:.*?)^totals: (\d+)$", re.M)
ENVIRONMENT = {**os.environ, "PYTHONHASHSEED": "0", "PYTHONWARNINGS": "ignore", "PYDEVD_DISABLE_FILE_VALIDATION": "1"}
VERSIONS = """
import importlib
for name in ("ipykernel", "ipywidgets", "rolgunai"):
    try:
        print(name, getattr(importlib.import_module(name), "__version__", ""))
    except ImportError:
        print(name, "missing")
"""
# What is collected is each thread's own: what others do meanwhile isn't counted.
METER = """
#define Py_LIMITED_API 0x030B0000
#include <Python.h>
#include <valgrind/callgrind.h>

#define REQUEST(name, made) \\
    static PyObject *name(PyObject *Py_UNUSED(module), PyObject *Py_UNUSED(none)) { made; Py_RETURN_NONE; }
REQUEST(start, CALLGRIND_START_INSTRUMENTATION)
REQUEST(toggle, CALLGRIND_TOGGLE_COLLECT)
REQUEST(zero, CALLGRIND_ZERO_STATS)

static PyObject *dump(PyObject *Py_UNUSED(module), PyObject *row)
{
    const char *name = PyUnicode_AsUTF8AndSize(row, NULL);
    if (name == NULL)
        return NULL;
    CALLGRIND_DUMP_STATS_AT(name);
    Py_RETURN_NONE;
}

static PyMethodDef methods[] = {{"start", start, METH_NOARGS, NULL}, {"toggle", toggle, METH_NOARGS, NULL},
    {"zero", zero, METH_NOARGS, NULL}, {"dump", dump, METH_O, NULL}, {NULL, NULL, 0, NULL}};
static struct PyModuleDef callgrind = {PyModuleDef_HEAD_INIT, "callgrind", NULL, -1, methods, NULL, NULL, NULL, NULL};
PyMODINIT_FUNC PyInit_callgrind(void) { return PyModule_Create(&callgrind); }
"""


def options():
    made = argparse.ArgumentParser(description=__doc__, formatter_class=argparse.RawDescriptionHelpFormatter)
    made.add_argument("package", metavar="PACKAGE", type=os.path.realpath)
    made.add_argument("--count", metavar="N", type=int, default=20)
    asked = made.parse_args()
    if asked.count < 1:
        made.error("N is 1 or more")
    return asked


def paths(package):
    """Where Python looks for packages, for each set of them."""
    newer = os.path.realpath(os.environ.get("ROLGUNAI_NEWER", "/nowhere")) + "/usr/lib/python3/dist-packages"
    if os.path.isdir(newer + "/comm"):
        return [package, f"{package}:{newer}"]
    print("skipped: ipykernel since 6.18 and ipywidgets 8: ROLGUNAI_NEWER names no folder that has them")
    return [package]


def versions(path):
    """What Python finds by this path, as text; ends the run where something that it wants is missing."""
    run = [sys.executable, "-B", "-c", VERSIONS]
    found = subprocess.run(run, env={**ENVIRONMENT, "PYTHONPATH": path}, stdout=subprocess.PIPE, text=True, check=True)
    lines = found.stdout.splitlines()
    tools = {"valgrind": shutil.which("valgrind"), "gcc": shutil.which("cc")}
    tools["python3-dev"] = os.path.exists(INCLUDE + "/Python.h")
    gone = [name for name, is_there in tools.items() if not is_there]
    gone += ["python3-" + line.split()[0] for line in lines if line.endswith(" missing")]
    if gone:
        own = f"rolgunai in {path.split(':')[0]}, which tools/c_library builds"
        named = [own if name == "python3-rolgunai" else f"Debian's package {name}" for name in gone]
        sys.exit("\n".join(f"instructions.py: missing: {it}" for it in named))
    return ", ".join(lines[:2])


def compile_meter(room):
    words = ["-O2", "-Wall", "-Wextra", "-Werror", "-shared", "-fPIC", "-I", INCLUDE, "-o", f"{room}/callgrind.so"]
    subprocess.run(["cc", *words, "-x", "c", "-"], input=METER, text=True, check=True)


def counted(room, path, which, count):
    """The instructions of each row, for one of its messages."""
    own = tempfile.mkdtemp(dir=room)
    words = [sys.executable, "-B", str(TRAFFIC), which, str(count), f"{own}/kernel.json"]
    run = [*VALGRIND, f"--callgrind-out-file={own}/profile", *words]
    environment = {**ENVIRONMENT, "PYTHONPATH": f"{path}:{room}", "IPYTHONDIR": own}
    done = subprocess.run(run, env=environment, stdout=subprocess.DEVNULL, stderr=subprocess.PIPE, text=True)
    found = PART.findall(pathlib.Path(own, "profile").read_text(errors="replace")) if not done.returncode else []
    if not found:
        raise SystemExit(f"the {which} kernel gave {done.returncode}: {done.stderr[-2000:]}")
    return {row: int(total) / count / 1000 for row, total in found}


def main():
    asked = options()
    sets = {path: versions(path) for path in paths(asked.package)}
    with tempfile.TemporaryDirectory() as room, ThreadPoolExecutor(2 * len(sets)) as pool:
        compile_meter(room)
        jobs = {path: [pool.submit(counted, room, path, which, asked.count) for which in KERNELS] for path in sets}
        for path, kernels in jobs.items():
            stock, proved = (job.result() for job in kernels)
            print(f"\n| {sets[path]} | stock | proved | stock ÷ proved |\n|---|---|---|---|")
            for row, one in stock.items():
                print(f"| {row} | {one:,.1f} | {proved[row]:,.1f} | {one / proved[row]:.3f} |", flush=True)


if __name__ == "__main__":
    main()
