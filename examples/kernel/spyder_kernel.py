"""Spyder's kernel, and with --proved over the proved comm manager: spyder_kernel.py [--proved] -f CONNECTION_FILE."""

import os
import sys

if "ROLGUNAI_PACKAGE" in os.environ:
    sys.path.insert(0, os.environ["ROLGUNAI_PACKAGE"])

from ipykernel.kernelapp import IPKernelApp
from spyder_kernels.console.kernel import SpyderKernel


class ProvedKernel(SpyderKernel):
    def __init__(self, **kwargs):
        import rolgunai.comms

        super().__init__(**kwargs)
        rolgunai.comms.install(self)


if __name__ == "__main__":
    is_proved = sys.argv[1] == "--proved"
    words = sys.argv[1 + is_proved :]
    IPKernelApp.launch_instance(words, kernel_class=ProvedKernel if is_proved else SpyderKernel)
