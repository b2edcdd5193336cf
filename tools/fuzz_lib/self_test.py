"""Whether the scripts have numbers of each kind at each place, whether the model writes what each example must, and
whether a difference is found. Nothing of Rolgunai is played."""
import re

from hostile_lib.numbers import FLOATS, NEITHER, whole

from .json_texts import object_in
from .model import Model
from .mutants import Mutants
from .plays import Players

SEED, SCRIPTS, LINES = 1, 120, 120


def in_state(number):
    """The form of a state that is read and has such a number."""
    return rb'^state \d+ \{.*"state":.*[:\[,]' + number + rb"[],}]"


def in_data(begins, kind=b"comm_msg"):
    """The form of a message with a fraction or an exponent in its data, which begins so."""
    return rb'^out .*"data":\{' + begins + rb'.*[:\[,]-?[\d.]+([.]\d+|[eE][-+]?\d+)[],}].*"' + kind + b'"'


# What some random script has, in both settings: the name of what it shows, and its form.
GIVEN = {
    "a client with a fraction or an exponent": rb'"client": -?\d+(\.\d|[eE])',
    "a step with a fraction or an exponent": rb'"buffer_paths": \[[^{}]*\["[^]]*, -?\d+(\.\d|[eE])[^",]*\]',
    "a command's state with one": rb'"call": "push".*"state": \{"[^"]*": -?\d+(\.\d|[eE])',
}
# What is written for some random script, of each setting.
BOTH = {
    "a line that is no JSON": rb"^bad \d+ not_json$",
    "a client that is refused": rb"^bad \d+ bad_client$",
    "a path that is refused": rb"^reply \d+ fault bad_path \d+$",
    "a path of a command that is refused": rb"^bad \d+ bad_path \d+$",
}
WRITTEN = {
    False: BOTH | {"a number that isn't whole": rb"^bad \d+ not_whole$", "a state that is read": in_state(rb"\d+")},
    True: BOTH
    | {
        "a fraction": in_state(rb"-?\d+\.\d+"),
        "an exponent": in_state(rb"-?\d+e[-+]?\d+"),
        "a capital exponent": in_state(rb"-?[\d.]+E[-+]?\d+"),
        "-0": in_state(b"-0"),
        "a zero with an exponent": in_state(rb"-?0[eE][-+]?\d+"),
        "a number beyond the range": in_state(rb"-?\d{20,}"),
        "a number of many digits": in_state(rb"\d\.\d{400,}"),
        "a number beside a buffer": rb'^state \d+ \{"buffer_paths":\[\["\w+",.*:\[([\d.]+\.\d+,null|null,[\d.]+\.\d+)',
        "an update": in_data(rb'"buffer_paths":.*,"method":"update"'),
        "an echo of an update": in_data(rb'"buffer_paths":.*,"method":"echo_update"'),
        "a launch": in_data(b'"buffer_paths":', b"comm_open"),
        "data that comes back": in_data(rb'("long key of a state"|"max"|"value"|"x")'),
        "a custom message": rb'^reply \d+ custom .*"content":(.*[:\[,])?-?\d+([.]\d+|[eE][-+]?\d+)[],}]',
    },
}

# Other texts of the same number, and near ones, in the answers to examples/decimals/number_texts.jsonl.
FALSIFIED = [
    (b"1.00,", b"1.0,"),
    (b"1e0", b"1.0"),
    (b"1E+2", b"1e+2"),
    (b"1E+2", b"100"),
    (b",-0,", b",0,"),
    (b"-0.0", b"0.0"),
    (b"0e0", b"0"),
    (b"18446744073709551616", b"18446744073709551615"),
    (b"-9223372036854775809", b"-9.223372036854776e18"),
    (b"0.25", b"0"),
]


class SelfTest:
    """Counts what passes and fails."""

    def __init__(self, root):
        self.root = root
        self.passed = self.failed = 0

    def count(self, name, is_passed):
        self.passed += is_passed
        self.failed += not is_passed
        if not is_passed:
            print(f"fuzz: self-test: {name} FAILED", flush=True)

    def test(self):
        self.numbers()
        self.examples()
        self.scripts()
        self.differences()

    def numbers(self):
        """What is read of each text, beside the lists of tools/hostile."""
        for is_number, is_whole, texts in ((True, True, whole()), (True, False, FLOATS), (False, False, NEITHER)):
            for text in texts:
                read = object_in(f'{{"n":{text}}}'.encode())
                found = read is not None, read is not None and read["n"].whole is not None
                self.count(f"the number {text[:60]}", found == (is_number, is_whole))
                self.count(f"the text of {text[:60]}", not is_number or read["n"].text == text)

    def examples(self):
        """What the model writes for each example, beside what is expected of the program or of the library."""
        for folder, decimals in (("examples", False), ("examples/decimals", True)):
            for script in sorted((self.root / folder).glob("*.jsonl")):
                wanted = script.with_suffix(".expected").read_bytes()
                given = Model(decimals, has_stock=not decimals).played(script.read_bytes())
                self.count(f"the model on {folder}/{script.name}", given == wanted)
        given = Model(False, has_stock=False).played((self.root / "examples/stock.jsonl").read_bytes())
        self.count("the model without stock", given == (self.root / "bindings/stock.expected").read_bytes())

    def scripts(self):
        """Random ones, twice, in both settings."""
        for decimals, rows in WRITTEN.items():
            made, again = (Mutants(self.root, SEED, LINES, True, decimals) for _ in range(2))
            texts, last = [made.script(number) for number in range(SCRIPTS)], SCRIPTS - 1
            setting = "with decimals" if decimals else "with whole numbers"
            self.count(f"the same seed, {setting}", texts[last] == again.script(last))
            answers = b"".join(Model(decimals, has_stock=not decimals).played(text) for text in texts)
            for among, forms in ((b"\n".join(texts), GIVEN), (answers, rows)):
                for name, form in forms.items():
                    self.count(f"{name}, {setting}", re.search(form, among, re.MULTILINE) is not None)
            self.count(f"not_whole, {setting}", (b" not_whole\n" in answers) == (not decimals))
            bad = len(re.findall(rb"^bad ", answers, re.MULTILINE)) / sum(text.count(b"\n") for text in texts)
            self.count(f"{bad:.0%} of the lines are refused, {setting}", bad < 0.3)

    def differences(self):
        """A player who writes another text, ends by another status or complains is found; the true one isn't."""
        script = (self.root / "examples/decimals/number_texts.jsonl").read_bytes()
        true = (self.root / "examples/decimals/number_texts.expected").read_bytes()
        plays = [
            ("nothing", (0, true, b""), False),
            ("a status", (1, true, b""), True),
            ("an error", (0, true, b"x"), True),
        ]
        plays += [(f"{by} for {old}", (0, true.replace(old, by), b""), True) for old, by in FALSIFIED]
        for name, played, differs in plays:
            players = Players({"one": lambda _, played=played: played}, decimals=True, has_stock=False)
            self.count(f"{name} is found", players.differ(script) == differs)
