"""The front for ipykernel: its own classes stay, and what they say goes by the manager of their kernel.

Until 6.17 ipykernel has comms of its own; since 6.18 they are those of the package `comm`.
"""

from __future__ import annotations

import functools
import importlib
import logging
from collections.abc import Callable
from typing import Any

from ipykernel.comm import comm as stock
from ipykernel.comm import manager as stock_manager

from rolgunai._calls import Pack
from rolgunai._kernel import Message, Send
from rolgunai._native import trait
from rolgunai._traits import know
from rolgunai.hub import Hub

IS_OF_COMM = hasattr(stock, "BaseComm")
Comm = stock.BaseComm if IS_OF_COMM else stock.Comm
PUBLISH = "publish_msg" if IS_OF_COMM else "_publish_msg"
_stock_publish = getattr(Comm, PUBLISH)
_stock_handle = stock.Comm.handle_msg
_MANAGER = "_rolgunai_manager"  # of a comm: what it was registered with


class CommManager(Hub, stock_manager.CommManager):
    """What the kernel has as its `comm_manager`."""

    def __init__(
        self,
        send: Send,
        request: Callable[[], Any],
        *,
        pack: Pack | None = None,
        is_old_browser: bool = True,
        **kwargs: Any,
    ) -> None:
        stock_manager.CommManager.__init__(self, **kwargs)
        for kind in (stock.Comm, type(self), type(self.kernel)):
            know(kind)
        log = logging.getLogger("Comm") if IS_OF_COMM else self.log
        keys: dict[str, Any] = {"is_old_browser": is_old_browser, "handle": None if IS_OF_COMM else handle_msg}
        Hub.__init__(self, send, request, self._made, pack=pack, comm_log=log, **keys)

    def _made(self, comm_id: str, **keys: Any) -> Any:
        """A comm that a frontend opens."""
        keys.update({"show_warning": False} if IS_OF_COMM else {"kernel": self.kernel})
        return stock.Comm(comm_id=comm_id, topic=f"comm-{comm_id}".encode(), **keys)

    def register_comm(self, comm: Any) -> str:
        """Takes a comm in, for the kernel that the manager is of; Hub.register_comm says more."""
        kernel, is_stock = trait(self, "kernel"), isinstance(comm, Comm)
        its_kernel = trait(comm, "kernel", None)
        if its_kernel is not kernel and (not IS_OF_COMM or (is_stock and its_kernel is None)):
            comm.kernel = kernel
            its_kernel = trait(comm, "kernel", None)
        if its_kernel is not kernel or kernel.comm_manager is not self:
            other = self._other_of(comm)
            if other is not None:
                return other.register_comm(comm)
        if is_stock and its_kernel is kernel:
            comm.__dict__[_MANAGER] = self
        return super().register_comm(comm)

    def unregister_comm(self, comm: Any) -> None:
        """Forgets a comm; Hub.unregister_comm says more."""
        other = self._other_of(comm)
        if other is not None:
            other.unregister_comm(comm)
        else:
            super().unregister_comm(comm)

    def _other_of(self, comm: Any) -> CommManager | None:
        """The manager of the comm's kernel, where that is a second one of this process: `comm` knows but one."""
        other = getattr(getattr(comm, "kernel", None), "comm_manager", None)
        is_its_own = isinstance(other, CommManager) and other is not self and other.kernel is comm.kernel
        return other if is_its_own else None


def handle_msg(comm: Any, msg: Message) -> None:
    """Does what a comm of ipykernel's does with a message before 6.18, but for its line at debug where no handler of
    logs takes it: the kernel's logger makes a record of each, which takes longer than all that the manager does."""
    if getattr(comm.handle_msg, "__func__", None) is not _stock_handle or _hears_debug(trait(comm, "log")):
        comm.handle_msg(msg)
        return
    callback = trait(comm, "_msg_callback")
    if callback:
        shell = trait(trait(comm, "kernel"), "shell")
        if shell:
            shell.events.trigger("pre_execute")
        callback(msg)
        if shell:
            shell.events.trigger("post_execute")


def _hears_debug(log: Any) -> bool:
    """Whether somebody may take a line at debug."""
    while isinstance(log, logging.Logger):
        if log.filters:
            return True
        for handler in log.handlers:
            if handler.level <= logging.DEBUG:
                return True
        log = log.parent if log.propagate else None
    return log is not None


def _manager_of(comm: Any) -> Any:
    """The manager that a comm goes by which was registered with none, or None where it is ipykernel's own."""
    kernel = comm.kernel
    managers = [getattr(kernel, "comm_manager", None)]
    if IS_OF_COMM:
        managers.append(importlib.import_module("comm").get_comm_manager())
    found = (each for each in managers if isinstance(each, CommManager) and kernel in (None, each.kernel))
    return next(found, None)


@functools.wraps(_stock_publish)
def publish(comm: Any, msg_type: str, data: Any = None, metadata: Any = None, buffers: Any = None, **keys: Any) -> None:
    """In the place of ipykernel's own: has the manager of the comm's kernel play it. Where that is another's, as of a
    second kernel in the process, it is ipykernel's own."""
    manager = comm.__dict__.get(_MANAGER) or _manager_of(comm)
    if manager is None:
        _stock_publish(comm, msg_type, data, metadata, buffers, **keys)
    elif keys:
        manager.publish(comm, msg_type, data, metadata, buffers, **keys)
    else:
        manager.publish(comm, msg_type, data, metadata, buffers)
