"""Who plays a script, and whether they differ."""
import subprocess
import sys
import tempfile

from .model import Model

SECONDS = 60


def play(words, script):
    try:
        ran = subprocess.run(words, input=script, capture_output=True, timeout=SECONDS)
    except subprocess.TimeoutExpired:
        return -1000, b"", b"no end\n"
    return ran.returncode, ran.stdout, ran.stderr


def play_file(words, script):
    """By a program that is given the script's file."""
    with tempfile.NamedTemporaryFile(suffix=".jsonl") as file:
        file.write(script)
        file.flush()
        return play([*words, file.name], b"")


def words_of(out):
    """The words of the replies and the bad lines that were written."""
    seen = set()
    for line in out.split(b"\n"):
        if line.startswith((b"reply ", b"bad ")):
            seen.add(
                b" ".join(
                    it for it in line.split(b" ")[2:4] if it.isascii() and it.replace(b"_", b"").isalpha()
                ).decode()
            )
        elif line.startswith(b"state "):
            seen.add("state")
    return seen


class Players:
    """Those who play a script, by their names: each gives a status, what it wrote, and its standard error."""

    def __init__(self, ways, decimals, has_stock):
        self.ways = ways
        self.ways["model"] = lambda script: (0, Model(decimals, has_stock).played(script), b"")

    def played(self, script):
        return [(name, way(script)) for name, way in self.ways.items()]

    def compared(self, script):
        """Whether they differ, or end otherwise than by status 0 with nothing on standard error; and the words that
        were seen."""
        given = [it for _, it in self.played(script)]
        one = given[0]
        return one[0] != 0 or bool(one[2]) or any(it != one for it in given), words_of(one[1])

    def differ(self, script):
        return self.compared(script)[0]


def of_program(program, beside):
    """The program over both managers, another if one is named, and the model."""
    commands = {"one": [program], "shared": [program, "shared"], **({"beside": [beside]} if beside else {})}
    ways = {name: lambda script, words=words: play(words, script) for name, words in commands.items()}
    return Players(ways, decimals=False, has_stock=True)


def of_library(root, folder, beside):
    """The library from C and from Python, opened with decimals, another program if one is named, and the model."""
    script = root / "bindings/python/play.py"
    from_python = [sys.executable, "-B", script, folder / "librolgunai.so", "--decimals"]
    ways = {
        "c": lambda it: play_file([folder / "play", "--decimals"], it),
        "python": lambda it: play_file(from_python, it),
        **({"beside": lambda it: play([beside], it)} if beside else {}),
    }
    return Players(ways, decimals=True, has_stock=False)
