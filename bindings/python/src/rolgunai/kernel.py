"""The IPython kernel with the proved comm manager.

    python -m rolgunai.kernel install     # Jupyter offers 'Python, proved comms' from then on; --help says where to
    python -m rolgunai.kernel -f FILE     # the kernel, as Jupyter starts it
"""

from __future__ import annotations

import argparse
import json
import sys
import tempfile
from pathlib import Path

NAME, TITLE = "rolgunai", "Python, proved comms"


def write_spec(folder: str | Path, title: str = TITLE) -> None:
    """Writes the kernelspec into a folder. It names this Python, which has the package, and no other path."""
    argv = [sys.executable, "-Xfrozen_modules=off", "-m", "rolgunai.kernel", "-f", "{connection_file}"]
    spec = {"argv": argv, "display_name": title, "language": "python", "metadata": {"debugger": True}}
    (Path(folder) / "kernel.json").write_text(json.dumps(spec, indent=1))


def install(words: list[str]) -> None:
    """Installs the kernelspec, for the user where nothing else is said."""
    from jupyter_client.kernelspec import KernelSpecManager

    parser = argparse.ArgumentParser(prog="python -m rolgunai.kernel install")
    parser.add_argument("--name", default=NAME, help=f"the kernelspec's name ({NAME})")
    parser.add_argument("--title", default=TITLE, help=f"what Jupyter shows ({TITLE})")
    where = parser.add_mutually_exclusive_group()
    where.add_argument("--user", action="store_true", help="for the user who runs it (the default)")
    where.add_argument("--sys-prefix", action="store_true", help="for this Python's environment")
    where.add_argument("--prefix", help="for the installation at a path")
    asked = parser.parse_args(words)
    prefix = sys.prefix if asked.sys_prefix else asked.prefix
    with tempfile.TemporaryDirectory() as folder:
        write_spec(folder, asked.title)
        specs = KernelSpecManager()
        print("installed", specs.install_kernel_spec(folder, asked.name, user=prefix is None, prefix=prefix))


def launch() -> None:
    """Runs the kernel."""
    from ipykernel.ipkernel import IPythonKernel
    from ipykernel.kernelapp import IPKernelApp

    import rolgunai.comms
    from rolgunai._shell import read_on

    class ProvedKernel(IPythonKernel):
        def __init__(self, **keys: object) -> None:
            super().__init__(**keys)
            rolgunai.comms.install(self)

        def start(self) -> None:
            super().start()
            read_on(self)

    IPKernelApp.launch_instance(kernel_class=ProvedKernel)


if __name__ == "__main__":
    if sys.argv[1:2] == ["install"]:
        install(sys.argv[2:])
    else:
        launch()
