"""A plugin of pytest's, with the options of `pytest --pyargs rolgunai.conformance --kernel KERNEL`."""

from __future__ import annotations

from typing import Any


def pytest_addoption(parser: Any) -> None:
    group = parser.getgroup("rolgunai.conformance", "the comms of a Jupyter kernel")
    group.addoption("--kernel", help="the kernel whose comms are tested")
    group.addoption("--kernels", help="the folder that has its kernelspec, instead of Jupyter's")
    group.addoption("--cells", help="cells for a language that the suite doesn't know")
    group.addoption("--storm", type=float, default=2, help="how many seconds a storm lasts (2)")
    group.addoption("--kernel-timeout", type=float, default=30, help="how many seconds an answer may take (30)")
