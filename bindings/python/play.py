"""Plays a script of JSON lines through the library, as the program does: play.py PACKAGE [--decimals] FILE writes its
answers; with --decimals every JSON number is a value. PACKAGE is the folder where the package is built."""

import sys

sys.path.insert(0, sys.argv[1])
from rolgunai import Manager


def main(*words: str) -> None:
    decimals = words[:1] == ("--decimals",)
    (script,) = words[decimals:]
    with open(script, "rb") as file, Manager(decimals=decimals) as manager:
        for line in file.read().split(b"\n"):
            sys.stdout.buffer.write(manager.line(line))


if __name__ == "__main__":
    main(*sys.argv[2:])
