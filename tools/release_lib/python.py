"""The package for Python: an sdist that has the library in it, and the wheel that is built of that sdist."""
import os
import shutil
import subprocess
import tarfile

from release_lib import archives

POLICY = "manylinux_2_17_x86_64"
WANTED = "3.11 or later, with Debian's python3-dev, python3-setuptools and python3-wheel"
NO_PACKAGE = ("test_*", "checks.py", "bench.py", "play.py", "stand_in", "comms_kernel.py", "conformance_*")
ASKED = """import os, sys, sysconfig, setuptools, wheel
sys.exit(sys.version_info < (3, 11) or not os.path.exists(os.path.join(sysconfig.get_path("include"), "Python.h")))"""


def builder():
    """A Python that builds wheels, or None."""
    for candidate in (os.environ.get("PYTHON", "python3"), "/usr/bin/python3"):
        found = shutil.which(candidate)
        if found and not subprocess.run([found, "-c", ASKED], capture_output=True).returncode:
            return found
    return None


def laid_out(release, library, licenses, into):
    """The folder that an sdist is made of: bindings/python without its tests, the page of the conformance suite, the
    library, its headers, and licenses."""
    source = release.sources / "bindings/python"
    left_out = shutil.ignore_patterns(*NO_PACKAGE)
    shutil.copytree(source, into, ignore=lambda folder, names: left_out(folder, names) if folder == str(source) else [])
    shutil.copy(release.sources / "docs/CONFORMANCE.md", into / "src/rolgunai/conformance")
    (into / "packed").mkdir()
    shutil.copy(library, into / "packed/librolgunai.a")
    for header in ("rolgunai.h", "rolgunai_client.h"):
        shutil.copy(release.sources / "bindings/c" / header, into / "packed")
    for name, text in licenses.items():
        (into / name).parent.mkdir(exist_ok=True)
        (into / name).write_bytes(text)


def run(release, folder, *words):
    """Runs setup.py, so that the same files come of it each time."""
    flags = f"-g0 -ffile-prefix-map={folder}=."
    environment = {**os.environ, "SOURCE_DATE_EPOCH": f"{release.date}", "CFLAGS": flags, "PYTHONHASHSEED": "0"}
    for name in ("ROLGUNAI_ARCHIVE", "ROLGUNAI_HEAP", "LDFLAGS", "PYTHONPATH"):
        environment.pop(name, None)
    command = [release.python, "-B", "setup.py", "-q", *words]
    done = subprocess.run(command, cwd=folder, env=environment, capture_output=True, text=True)
    if done.returncode:
        raise RuntimeError(f"setup.py {' '.join(words)}: {done.stdout}{done.stderr}")


def make(release, library, licenses, work, into):
    """Makes both, into a folder: the sdist first, and of it the wheel, whose name it gives."""
    name = f"rolgunai-{release.version}"
    laid_out(release, library, licenses, work / "staged")
    run(release, work / "staged", "sdist", "--formats=tar", "--dist-dir", work)
    with tarfile.open(work / f"{name}.tar") as made:
        made.extractall(work)
    sdist = archives.packed(name, archives.files_below(work / name), release.date)
    (into / f"{name}.tar.gz").write_bytes(sdist)
    run(release, work / name, "bdist_wheel", "--plat-name", POLICY, "--dist-dir", into)
    return f"{name}-cp311-abi3-{POLICY}.whl"
