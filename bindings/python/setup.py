"""Builds the package with the library in it: `pip install bindings/python`, in a checkout whose library is built, or
`pip install rolgunai-VERSION.tar.gz`, which has the library and its header in the folder packed/.

ROLGUNAI_ARCHIVE names a librolgunai.a that lies elsewhere, ROLGUNAI_HEAP another heap than native/heap.c.
"""

import os
import pathlib
import re
import sys

from setuptools import Extension, setup
from setuptools.command.build_ext import build_ext

HERE = pathlib.Path(__file__).resolve().parent
IS_PACKED = (HERE / "packed").is_dir()
LIBRARY = HERE / "packed" if IS_PACKED else HERE.parents[1] / "crates/comm_c/out/bindings"
HEADERS = "packed" if IS_PACKED else "../c"
ARCHIVE = pathlib.Path(os.environ.get("ROLGUNAI_ARCHIVE") or LIBRARY / "librolgunai.a")
HEAP = os.environ.get("ROLGUNAI_HEAP") or ""
MISSING = f"""
{ARCHIVE} isn't there: the proved library, which this package has in it.
Run tools/c_library at the top of the repository, which builds it, or give ROLGUNAI_ARCHIVE=.../librolgunai.a.
"""
VERSION = re.search(r'^#define ROLGUNAI_VERSION "(.*)"$', (HERE / HEADERS / "rolgunai.h").read_text(), re.MULTILINE)[1]


class BuildWithLibrary(build_ext):
    """Says what to run where the library isn't there, before a compiler says something else."""

    def run(self):
        if not ARCHIVE.is_file():
            sys.exit(MISSING)
        super().run()


SOURCES = (
    "arguments requests json values traits updates gather outcome manager seats shared sending turns long_buffers"
    " watches event_pipe module"
).split()
NATIVE = Extension(
    "rolgunai._native",
    sources=[
        HEAP or "native/heap.c",
        *(f"native/{name}.c" for name in SOURCES),
    ],
    depends=["native/native.h", "native/turns.h", f"{HEADERS}/rolgunai.h", f"{HEADERS}/rolgunai_client.h"],
    include_dirs=["native", HEADERS],
    extra_objects=[str(ARCHIVE)],
    # Nothing is seen from outside but the module's start, so that other modules' names may be the same, and another
    # copy of the archive in the same process. Tests of another heap look into it.
    extra_compile_args=[] if HEAP else ["-fvisibility=hidden"],
    extra_link_args=["-Wl,--exclude-libs,ALL"] if sys.platform == "linux" else [],
    py_limited_api=True,
)

os.chdir(HERE)
setup(
    version=VERSION,
    license="MIT",
    packages=["rolgunai", "rolgunai.conformance"],
    package_dir={"": "src"},
    package_data={
        "rolgunai": ["py.typed", "*.pyi"],
        "rolgunai.conformance": ["scenarios/*.txt", "cells/*.txt", "CONFORMANCE.md"],
    },
    include_package_data=False,
    ext_modules=[NATIVE],
    cmdclass={"build_ext": BuildWithLibrary},
    # What was built before may have had another archive in it, also a newer one.
    options={"bdist_wheel": {"py_limited_api": "cp311"}, "build_ext": {"force": True}},
)
