"""Several wrong bodies in one copy of a crate: one check of their functions names each that is refused, and what the
crate stands on is read once."""
import re
from dataclasses import dataclass
from pathlib import Path

from .reach import units_of

SIZE = 8
HEAD = re.compile(r"^( *)(?:pub(?:\(\w+\))? )?fn (\w+)")
TOLD = re.compile(r"(?:note: )?(?:\./)?(\S+?):(\d+):\d+: (.*)")
# What the kit takes for a proof file that names what an edit took away.
NAMES = re.compile(r"has no field|is not in scope|has no `|was not admitted")


@dataclass(frozen=True)
class Function:
    """A function of a source file, by its first and its last line: the prover names the line of its first attribute."""

    file: str
    name: str
    first: int
    last: int
    is_only_one: bool  # of its name in the file
    owner: str | None = None  # the type that it is a function of
    is_of_trait: bool = False

    def module(self):
        parts = self.file.removeprefix("src/").removesuffix(".rt").removesuffix("/mod").split("/")
        return [] if parts in (["lib"], ["main"]) else parts

    def folder(self):
        """Where the proofs of the functions of its module stand."""
        return "/".join(["proofs", *self.module(), ""])

    def path(self):
        """The end of the path by which a check of it alone names it; of a trait's function the path of its module.
        None: there is none."""
        if self.owner:
            return f"{self.owner}::{self.name}"  # the module of a type may be another
        return "::".join([*self.module(), *([] if self.is_of_trait else [self.name])]) or None

    def is_proved_by(self, file):
        """Whether this file of proofs answers what is asked of it."""
        at = Path(file)
        is_of_type = self.owner is not None and at.parent.parent.name == self.owner
        return self.is_only_one and at.parent.name == self.name and (is_of_type or file.startswith(self.folder()))


def functions_in(file, text):
    lines, units = text.split("\n"), units_of(file, text)
    heads = [(number, head) for number, head in enumerate(map(HEAD.match, lines), 1) if head]
    names = [head[2] for _, head in heads]
    for number, head in heads:
        last = next((at for at in range(number, len(lines) + 1) if lines[at - 1] == f"{head[1]}}}"), number)
        around = [it for it in units if it.first < number <= it.last]
        own = next((it for it in around if it.kind == "function" and it.name == head[2]), None)
        first = own.first + 1 if own else number
        yield Function(file, head[2], first, last, names.count(head[2]) == 1, own and own.owner, own is None)


def changed(before, after):
    """The numbers of the lines that differ, or none where not line stands for line."""
    old, new = before.split("\n"), after.split("\n")
    return (
        [number for number, (one, other) in enumerate(zip(old, new), 1) if one != other] if len(old) == len(new) else []
    )


def function_of(before, after):
    """The one function in which all lies that an edit changes, or None. Both are texts by their file."""
    if len(after) != 1:
        return None
    [(file, text)] = after.items()
    numbers = changed(before[file], text)
    if not numbers:
        return None
    around = [it for it in functions_in(file, before[file]) if it.first <= numbers[0] and numbers[-1] <= it.last]
    return max(around, key=lambda it: it.first, default=None)


def grouped(edits, functions):
    """The edits in groups of a few, no two of a group in one function; one that lies in no function is a group of its
    own."""
    groups = []
    for edit in edits:
        function = functions.get(edit)
        fitting = (
            it
            for it in groups
            if len(it) < SIZE and function and all(functions.get(other) not in (None, function) for other in it)
        )
        group = next(fitting, None)
        if group is None:
            groups.append([edit])
        else:
            group.append(edit)
    return groups


def merged(before, afters):
    """The texts with what each of the edits changes, which are changes of other lines."""
    texts = {}
    for after in afters:
        for file, text in after.items():
            lines = texts.setdefault(file, before[file].split("\n"))
            new = text.split("\n")
            for number in changed(before[file], text):
                lines[number - 1] = new[number - 1]
    return {file: "\n".join(lines) for file, lines in texts.items()}


def is_refused(function, told):
    """Whether these lines of the prover say that the function isn't proved: at a line of it, or at a proof of it whose
    goal is another now."""
    for line in told:
        at = TOLD.match(line)
        if not at:
            continue
        file, number, said = at[1], int(at[2]), at[3]
        if file == function.file and function.first <= number <= function.last and said.startswith("it is not proved"):
            return True
        if function.is_proved_by(file) and said.startswith("error: ") and not NAMES.search(said):
            return True
    return False
