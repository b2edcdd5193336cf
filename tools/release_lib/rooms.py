"""Rooms in which a release is tried as a new user would: this machine without the kit and the checkout in sight, and
Debian alone, which debootstrap makes."""
import os
import shutil
import subprocess
from pathlib import Path

PACKAGES = (
    "python3-venv python3-dev python3-setuptools python3-wheel python3-ipykernel python3-ipywidgets "
    "python3-jupyter-client gcc g++ libc6-dev make cmake pkgconf cargo rustc twine qemu-user"
)
PARTS = ("tools/release_try", "tools/release_lib/slider_in_kernels.py", "examples/slider.expected")


def carried(bench, into):
    """Puts what is needed to try a release into a folder: the release, and the parts of the try."""
    for name in PARTS:
        (into / name).parent.mkdir(parents=True, exist_ok=True)
        shutil.copy2(bench.root / name, into / name)
    shutil.copytree(bench.made, into / "release")


def out_of_sight(bench, tried):
    """Tries the release here. As root, nothing is mounted over the kit and the checkout, in a namespace of the try's
    own; else they are only off the PATH."""
    room = bench.work / "room"
    carried(bench, room)
    hidden = [subprocess.run(["rt", "doc"], capture_output=True, text=True).stdout.strip(), bench.root]
    folders = [Path(hidden[0]).parent, *hidden[1:]]
    command = ["bash", room / "tools/release_try", room / "release"]
    if os.geteuid() == 0 and subprocess.run(["unshare", "-m", "true"], capture_output=True).returncode == 0:
        covers = "; ".join(f"mount -t tmpfs none '{folder}'" for folder in folders)
        command = ["unshare", "-m", "bash", "-c", f'set -e; cd /; {covers}; exec "$@"', "-", *command]
    else:
        tried.skip("the kit out of sight: no namespace can be made here; it is only off the PATH")
    done = subprocess.run(command, cwd="/", capture_output=True, text=True)
    tried.take("tools/release_try", done.stdout + done.stderr, done.returncode)


def in_debian(suite):
    """Tries the release in a root of a Debian, with packages of it alone."""

    def part(bench, tried):
        root = bench.work / suite
        quiet = {"check": True, "stdout": subprocess.DEVNULL, "stderr": subprocess.DEVNULL}
        subprocess.run(["debootstrap", "--variant=minbase", suite, root], **quiet)
        environment = {"PATH": "/usr/sbin:/usr/bin:/sbin:/bin", "DEBIAN_FRONTEND": "noninteractive", "LANG": "C.UTF-8"}
        install = ["apt-get", "-qy", "install", "--no-install-recommends", *PACKAGES.split()]
        subprocess.run(["chroot", root, *install], env=environment, **quiet)
        carried(bench, root / "try")
        command = ["unshare", "-m", "-p", "-f", "chroot", root, "sh", "-c"]
        command += ["mount -t proc proc /proc; mount -t devtmpfs dev /dev; exec /try/tools/release_try /try/release"]
        done = subprocess.run(command, env=environment, capture_output=True, text=True)
        print(done.stdout)
        tried.take(f"tools/release_try in Debian's {suite}", done.stdout + done.stderr, done.returncode)
        shutil.rmtree(root)

    part.__name__ = f"in_{suite}"
    return part


DEBIANS = [in_debian("bookworm"), in_debian("trixie")]
