"""python -m rolgunai.conformance KERNEL: plays the scenarios on a kernel, with a line for each.

The status is 0 where nothing failed, 1 where something did, 2 where nothing could be played, and 130 at Ctrl-C.
"""

from __future__ import annotations

import argparse
import sys
from pathlib import Path

try:
    from jupyter_client.kernelspec import KernelSpecManager, NoSuchKernel
except ImportError as error:
    print(f"python -m rolgunai.conformance wants jupyter_client: {error}", file=sys.stderr)
    sys.exit(2)

from rolgunai.conformance.cells import FOLDER, cells_for, read_cells
from rolgunai.conformance.frontend import Frontend, NotAnswering
from rolgunai.conformance.play import FAILED, Player, Result
from rolgunai.conformance.report import about, line, totals, write
from rolgunai.conformance.scenario import GROUPS, Scenario, scenarios

PAGE = Path(__file__).with_name("CONFORMANCE.md")  # in a package that tools/release made


def arguments(words: list[str] | None) -> argparse.Namespace:
    page = f"What comes of it, and how a language is added: {PAGE if PAGE.exists() else 'docs/CONFORMANCE.md'}"
    parser = argparse.ArgumentParser("python -m rolgunai.conformance", None, "Tests a kernel's comms.", page)
    parser.add_argument("kernel", help="the kernel's name, as `jupyter kernelspec list` has it")
    parser.add_argument("--only", action="append", metavar="NAME", help="a scenario or a group; may be given again")
    parser.add_argument("--storm", type=float, default=2, metavar="SECONDS", help="how long a storm lasts (2)")
    parser.add_argument("--report", action="append", default=[], metavar="FILE", help="a .json or .html to write too")
    parser.add_argument("--cells", metavar="FILE", help=f"cells of your language, as those in {FOLDER}")
    parser.add_argument("--kernels", metavar="FOLDER", help="the folder that has the kernelspec, instead of Jupyter's")
    parser.add_argument("--timeout", type=float, default=30, metavar="SECONDS", help="how long an answer may take (30)")
    asked = parser.parse_args(words)
    known = {name for scenario in scenarios() for name in (scenario.name, scenario.group)}
    for name in set(asked.only or []) - known:
        parser.error(f"there is no scenario or group {name}; the groups are {' '.join(GROUPS)}")
    for file in asked.report:
        if not Path(file).resolve().parent.is_dir():
            parser.error(f"there is no folder for the report {file}")
    if min(asked.storm, asked.timeout) <= 0:
        parser.error("--storm and --timeout are more than 0 seconds")
    try:
        if asked.cells and not read_cells(Path(asked.cells))[1]:
            parser.error(f"{asked.cells} has no cell: a line [NAME] begins one")
    except (OSError, ValueError, LookupError) as error:
        parser.error(f"the cells {asked.cells} can't be read: {error}")
    return asked


def chosen(only: list[str] | None) -> list[Scenario]:
    return [each for each in scenarios() if not only or each.name in only or each.group in only]


def play_all(asked: argparse.Namespace, frontend: Frontend) -> int:
    """Plays what is asked for on a kernel that has started. Gives the exit status."""
    results: list[Result] = []
    print(f"{asked.kernel}: {about(frontend.info)}", flush=True)
    cells = cells_for(frontend.language(), Path(asked.cells) if asked.cells else None)
    if not cells:
        print(f"no cells for kernels of {frontend.language()}: what needs code in the kernel is skipped")
    player = Player(frontend, cells, asked.storm)
    try:
        for scenario in chosen(asked.only):
            results.append(player.play(scenario))
            print(line(results[-1]), flush=True)
    finally:
        for file in asked.report:
            write(Path(file), asked.kernel, frontend.info, results)
    print(totals(results))
    return int(any(result.outcome == FAILED for result in results))


def main(words: list[str] | None = None) -> int:
    asked = arguments(words)
    try:
        frontend = Frontend(asked.kernel, asked.timeout, asked.kernels)
    except NoSuchKernel as error:
        folders = {"kernel_dirs": [asked.kernels]} if asked.kernels else {}
        print(f"{error}; there are: {' '.join(KernelSpecManager(**folders).find_kernel_specs())}", file=sys.stderr)
        return 2
    except NotAnswering as error:
        print(f"{asked.kernel} doesn't start: {error}", file=sys.stderr)
        return 2
    try:
        return play_all(asked, frontend)
    finally:
        frontend.close()


if __name__ == "__main__":
    try:
        sys.exit(main())
    except KeyboardInterrupt:
        sys.exit(130)
