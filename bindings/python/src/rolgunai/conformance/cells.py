"""Cells: what a scenario needs in the kernel, by language. A file has `language: NAME ..`, and a `[name]` before each
cell's code; other lines before the first cell are comments. `like: FILE` takes the cells of FILE.txt too, each behind
the one that is named `before`."""

from __future__ import annotations

import re
from pathlib import Path

FOLDER = Path(__file__).resolve().parent / "cells"


def read_cells(path: Path) -> tuple[list[str], dict[str, str]]:
    """The languages of a file, as kernels name theirs in kernel_info_reply, and its cells by their names."""
    head, *parts = re.split(r"^\[(\w+)\]\n", path.read_text(encoding="utf-8"), flags=re.MULTILINE)
    told = dict(re.findall(r"^(language|like): *(.*)$", head, re.MULTILINE))
    cells = {name: code.strip("\n") for name, code in zip(parts[::2], parts[1::2], strict=True)}
    if "like" in told:
        before = cells.pop("before")
        others = read_cells(FOLDER / f"{told['like']}.txt")[1]
        cells = {name: f"{before}\n{code}" for name, code in others.items()} | cells
    return told.get("language", "").lower().split(), cells


def cells_for(language: str, file: Path | None = None) -> dict[str, str]:
    """The cells of a language, or those of a file. None where the language has no file."""
    if file:
        return read_cells(file)[1]
    for path in sorted(FOLDER.glob("*.txt")):
        languages, cells = read_cells(path)
        if language.lower() in languages:
            return cells
    return {}
