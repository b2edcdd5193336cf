"""The comm manager and the `Comm` of a kernel in Python, over the proved manager.

In a kernel of ipykernel's, or in one whose comms come from the package `comm`, one line puts it behind the kernel's
`comm_manager`, `comm.create_comm` and `comm.get_comm_manager`:

    import rolgunai.comms
    rolgunai.comms.install()

It is to be run before comms are open: at the top of a notebook, in a startup file of IPython, or where a kernel starts
(`rolgunai.kernel`); `uninstall()` is the way back. A kernel that isn't ipykernel hands in how it sends, and hands the
manager what frontends send:

    >>> import json, rolgunai.comms
    >>> def send(msg_type, comm_id, content, metadata, buffers, parent):
    ...     print(msg_type, metadata, json.loads(content)["data"])
    >>> manager = rolgunai.comms.install(send=send, request=lambda: None)

Its own code then has comms as ever, towards targets of the frontends':

    >>> import comm
    >>> plot = comm.create_comm("my.plots", data={"points": [0.5]}, metadata={"figure": 1})
    comm_open {'figure': 1} {'points': [0.5]}
    >>> plot.on_msg(lambda message: plot.send({"heard": message["content"]["data"]}))
    >>> content = {"comm_id": plot.comm_id, "data": "more"}
    >>> manager.comm_msg(None, None, {"metadata": {}, "content": content, "buffers": []})
    comm_msg {} {'heard': 'more'}
    >>> plot.close({"bye": True})
    comm_close {} {'bye': True}
    >>> rolgunai.comms.uninstall()

What is other than in `comm` and ipykernel: a frontend's open of an id that is in use is refused, and the comm stays; a
widget's state lies with the manager too, which refuses what the widget protocol doesn't have; each message goes out
under the topic `comm-ID`. What the manager refuses the kernel's code gets as CommRefused, a ValueError, and nothing
goes out. What is said on a comm that isn't open, as after a frontend closed it, goes nowhere.

After an update's callbacks ran, what the widget itself holds is sent to every frontend where it isn't what they were
told: the kernel has the last word. Keys that a widget hasn't don't reach the manager.

`Comm` and `CommManager` are the classes of the kernel that runs: of an ipykernel its own comm, since 6.18 the one that
`comm.create_comm` makes there; else a comm of the package `comm`'s.
"""

from __future__ import annotations

import importlib
import importlib.util
import os
import sys
import warnings
from collections.abc import Callable, Iterator
from types import ModuleType
from typing import TYPE_CHECKING, Any, NamedTuple, cast

from rolgunai._kernel import CommRefused, Send
from rolgunai._patches import Patch, Patches
from rolgunai._wire import packer, read
from rolgunai.hub import Hub

if TYPE_CHECKING:
    from rolgunai._front_comm import Comm, CommManager

__all__ = ["Comm", "CommManager", "CommRefused", "install", "uninstall"]

# What a frontend sends on shell or control, and the kernel has the manager handle.
_HANDLED = ("comm_open", "comm_msg", "comm_close")
# The newest ipykernel that this was tried with; README.md has a table of what it was tried with.
_NEWEST = (7, 2)


class _Installation(NamedTuple):
    manager: Any
    stock: Any  # what was there before
    kernel: Any
    front: ModuleType
    patches: Patches


_installed: list[_Installation] = []


def install(kernel: Any = None, *, send: Send | None = None, request: Callable[[], Any] | None = None) -> CommManager:
    """Puts the proved manager behind the `comm_manager` of a kernel of ipykernel's, `comm.create_comm` and
    `comm.get_comm_manager`, and gives it. The kernel is the one that runs here, or is handed in; else `send` sends to
    all frontends, and `request` gives the message that the kernel's code runs for. RuntimeError where comms are open
    already, or where there is neither a kernel nor `send`; a warning where ipykernel is newer than those it was tried
    with.

    ROLGUNAI_BROWSER_PROTOCOL=2 in the environment says that frontends speak version 2 of the widget protocol also where
    ipywidgets in Python speaks version 1; else they are taken to speak the same."""
    kernel = kernel or _running_kernel()
    stock = getattr(kernel, "comm_manager", None) if kernel is not None else _manager_of_comm()
    is_hub = isinstance(stock, Hub)
    if is_hub and kernel is not None and stock.kernel is kernel:
        return cast("CommManager", stock)
    if kernel is None and send is None:
        raise RuntimeError("no kernel of ipykernel runs here: hand in how to send, install(send=..)")
    # A second kernel of a process has the first one's manager in the place of its own, with that one's comms.
    if stock is not None and stock.comms and not (is_hub and kernel is not None):
        raise RuntimeError(f"{len(stock.comms)} comms are open: install() comes before them, in a fresh kernel")
    front = _front(kernel)
    manager = _made(front, kernel, send, request)
    if stock is not None:
        manager.targets.update(stock.targets)
    patches = Patches(_patches(front, kernel, stock, manager))
    _installed.append(_Installation(manager, stock, kernel, front, patches))
    return cast("CommManager", manager)


def uninstall() -> None:
    """Takes back what `install` did last: the kernel has its own comm manager again, with the targets that are
    registered now. RuntimeError where comms are open, or where nothing is installed."""
    if not _installed:
        raise RuntimeError("nothing is installed")
    manager, stock, _, _, patches = _installed[-1]
    if manager.comms:
        raise RuntimeError(f"{len(manager.comms)} comms are open: close them first")
    _installed.pop()
    patches.take_back()
    if stock is not None:
        stock.targets.clear()
        stock.targets.update(manager.targets)


def __getattr__(name: str) -> Any:
    if name in ("Comm", "CommManager"):
        front = _installed[-1].front if _installed else _front(_running_kernel())
        return getattr(front, name)
    raise AttributeError(f"module {__name__!r} has no attribute {name!r}")


def _running_kernel() -> Any:
    base = sys.modules.get("ipykernel.kernelbase")
    return base.Kernel.instance() if base is not None and base.Kernel.initialized() else None


def _has_comm() -> bool:
    """Whether the package `comm` is here."""
    return "comm" in sys.modules or importlib.util.find_spec("comm") is not None


def _manager_of_comm() -> Any:
    return importlib.import_module("comm").get_comm_manager() if _has_comm() else None


def _front(kernel: Any) -> ModuleType:
    """The classes for a kernel, or for what isn't ipykernel's."""
    if kernel is None:
        if not _has_comm():
            raise RuntimeError("there is neither a kernel of ipykernel's here nor the package comm")
        return importlib.import_module("rolgunai._front_comm")
    _warn_of_newer()
    return importlib.import_module("rolgunai._front_ipykernel")


def _warn_of_newer() -> None:
    import ipykernel

    if ipykernel.version_info[:2] > _NEWEST:
        tried = ".".join(map(str, _NEWEST))
        words = f"rolgunai was tried with ipykernel up to {tried}; this is {ipykernel.__version__}"
        warnings.warn_explicit(words, UserWarning, __file__, 1, __name__, _warned)


_warned: dict[Any, Any] = {}  # once in a process


def _made(front: ModuleType, kernel: Any, send: Send | None, request: Callable[[], Any] | None) -> Any:
    """A manager of this front."""
    keys: dict[str, Any] = {"is_old_browser": os.environ.get("ROLGUNAI_BROWSER_PROTOCOL", "1") != "2"}
    if kernel is not None:
        from jupyter_client.jsonutil import json_clean, json_default

        keys.update(pack=packer(json_default, json_clean), parent=kernel, kernel=kernel)
        send = send or importlib.import_module("rolgunai._iopub").Sender(kernel).send
        request = request or kernel.get_parent
    return front.CommManager(send, request or (lambda: None), **keys)


# What is patched, all of it.


def _patches(front: Any, kernel: Any, stock: Any, manager: Any) -> Iterator[Patch]:
    if kernel is not None:
        yield from _of_kernel(kernel, stock, manager)
        yield Patch(front.Comm, front.PUBLISH, front.publish)
    if _has_comm():
        comm = importlib.import_module("comm")
        yield Patch(comm, "get_comm_manager", _current_manager)
        if kernel is None or not front.IS_OF_COMM:  # whose own makes what is patched above
            yield Patch(comm, "create_comm", front.Comm)


def _of_kernel(kernel: Any, stock: Any, manager: Any) -> Iterator[Patch]:
    yield Patch(kernel, "comm_manager", manager)
    for kind in _HANDLED:
        yield Patch(kernel.shell_handlers, kind, getattr(manager, kind))
    for handlers in (kernel.shell_handlers, kernel.control_handlers):
        yield Patch(handlers, "comm_info_request", _info_handler(kernel, manager))
    yield from importlib.import_module("rolgunai._wakes").patches_of(kernel)
    shell = getattr(kernel, "shell", None)
    if shell is not None:
        configurables = [manager if each is stock else each for each in shell.configurables]
        yield Patch(shell, "configurables", configurables)


def _current_manager() -> Any:
    """The manager of the kernel that runs, or else the one that was installed last."""
    if len(_installed) == 1:
        return _installed[0].manager
    kernel = _running_kernel()
    for installation in reversed(_installed):
        if installation.kernel is kernel:
            return installation.manager
    return _installed[-1].manager if _installed else None


def _info_handler(kernel: Any, manager: Any) -> Callable[..., Any]:
    async def comm_info_request(stream: Any, ident: Any, parent: Any) -> None:
        try:
            content = read(manager.comm_info(parent))
        except CommRefused as refused:
            content = {"status": "error", "ename": "CommRefused", "evalue": str(refused), "traceback": []}
        kernel.session.send(stream, "comm_info_reply", content, parent, ident)

    return comm_info_request
