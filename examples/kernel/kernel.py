"""A kernel of one's own with the proved comm manager: IPython's, with one line more.

/usr/bin/python3 kernel.py -f CONNECTION_FILE, as a kernel is started. ROLGUNAI_PACKAGE names a folder that has the
package rolgunai, where it isn't installed.
"""

import os
import sys

if "ROLGUNAI_PACKAGE" in os.environ:
    sys.path.insert(0, os.environ["ROLGUNAI_PACKAGE"])

from ipykernel.ipkernel import IPythonKernel
from ipykernel.kernelapp import IPKernelApp

import rolgunai.comms


class ProvedKernel(IPythonKernel):
    def __init__(self, **kwargs):
        super().__init__(**kwargs)
        rolgunai.comms.install(self)


if __name__ == "__main__":
    IPKernelApp.launch_instance(kernel_class=ProvedKernel)
