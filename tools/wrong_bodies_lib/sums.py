"""A sum of all that the outcome of a wrong body depends on, but for the kit: the edit, the function that it changes with
what proves it, and the statements that are named from there on.

Of its own crate and of those below, that function's proof reads what they state: items and contracts, definitions, and
lemmas. Neither the bodies of other functions nor the answers that prove them: a call is known by its contract. Of these
statements those count that are named (reach.py, definitions.py), and of a type below what can be seen of it (seen.py).
An edit of another form has all of its crate in its sum. Lines that are blank or only a comment change nothing and are
left out, and so are those that only say what is inlined."""
import hashlib
import re
from pathlib import Path

from .definitions import definitions_of
from .edits import places_of
from .reach import Index, Reached, Stated, units_of
from .seen import from_above, hidden, private_types

FORM = "8"
CONTRACT = re.compile(r" *ensures\b")
INLINED = re.compile(r" *#\[inline(?:\((?:always|never)\))?\]")
COMMENTS = {".rt": "//", ".antt": "--"}
ANSWERS = ("Answers.antt", "Invariants.antt", "Proof.antt")


def is_answer(path):
    """Whether a file of a crate proves a function of it."""
    return path.startswith("proofs/") and path.endswith(ANSWERS)


def folders_of_proof(path):
    """The folders that say whose proof a file is a part of: what stands beside answers may have a folder of its own."""
    parts = Path(path).parts
    return parts[-2:-1] if is_answer(path) else parts[1:-1] if parts[0] == "proofs" else ()


# Two imports of one module, one after the other.
IMPORTS = re.compile(r"(?<=ghost use )([\w.]+)\.\{([^{}]*)\}; ghost use \1\.\{")


def plain(text, suffix):
    """The text without the lines that are blank, only a comment or only an inline attribute, which is for the compiler
    alone."""
    lines = [line for line in text.splitlines() if line.strip() and not line.lstrip().startswith(COMMENTS[suffix])]
    return "\n".join(line for line in lines if suffix != ".rt" or not INLINED.fullmatch(line))


def said(text, suffix):
    """The plain text. The lines of a source are joined but where a comment ends one, since how they are broken and
    indented says nothing; so are imports of one module."""
    text = plain(text, suffix)
    if suffix != ".rt":
        return text
    mark = COMMENTS[suffix]
    joined = "".join(line.strip() + ("\n" if mark in line else " ") for line in text.split("\n"))
    while (shorter := IMPORTS.sub(r"\1.{\2, ", joined)) != joined:
        joined = shorter
    return joined


CYCLE = re.compile(r"#\[cycle\((\w+)\)\]")  # its functions are proved together
FUNCTION = re.compile(r"^( *)(?:pub(?:\([a-z]+\))? )?(?:unsafe |final )*fn ")
CLAUSE = re.compile(r"^ *(?:requires|ensures|decreases|where)\b")


def stated(text):
    """A source in rt fmt's layout without the bodies of its functions. Those of constant functions stay, and so does
    what isn't laid out as expected."""
    kept, lines, at = [], text.split("\n"), 0
    while at < len(lines):
        kept.append(lines[at])
        function = FUNCTION.match(lines[at])
        at += 1
        if not function:
            continue
        indent, line, is_clause = function[1], kept[-1], False
        opens = (indent + "{", indent + "{}")
        while at < len(lines) and line not in opens and (is_clause or not line.endswith((" {", ";", "{}"))):
            if is_clause and line.endswith(";") and not lines[at].startswith(indent + " "):
                break  # It has no body.
            line = lines[at]
            is_clause = is_clause or CLAUSE.match(line) is not None
            kept.append(line)
            at += 1
        if line.endswith("{") and indent + "}" in lines[at:]:
            at = lines.index(indent + "}", at)
    return "\n".join(kept)


def listed(text):
    """crates.txt as a dict from each crate to its line's words after the name: what it uses, and what stands before the
    colon."""
    rows = {}
    for line in text.splitlines():
        words = line.partition("#")[0].replace(":", " : ").split()
        if words:
            rows[words[0]] = words[1:]
    return rows


def below(rows, crate):
    """The crates below this one, in order of their names."""
    found, left = set(), [crate]
    while left:
        for name in rows.get(left.pop(), []):
            if name in rows and name not in found:
                found.add(name)
                left.append(name)
    return sorted(found)


def function_at(file, text, line):
    """The function with a contract in whose body this line stands, once in the text; or None."""
    if text.count(line) != 1:
        return None
    at = text[: text.index(line)].count("\n")
    for unit in units_of(file, text):
        if unit.first <= at < unit.last and unit.kind == "function":
            lines = unit.text.split("\n")
            indent = re.match(" *", unit.text.rstrip("\n").rpartition("\n")[2])[0]
            opens = lines.index(indent + "{") if indent + "{" in lines else len(lines)
            is_proved = any(CONTRACT.match(it) for it in lines[:opens])
            return unit if is_proved and at - unit.first > opens else None
    return None


class Sums:
    """The sums of one state of the repository."""

    def __init__(self, root):
        self.root = Path(root)
        self.rows = listed((self.root / "crates.txt").read_text())
        self.known = {}

    def kept(self, name, crate, work):
        """What the work gives for this crate, which is done once."""
        if (name, crate) not in self.known:
            self.known[name, crate] = work(crate)
        return self.known[name, crate]

    def files(self, crate):
        """The texts of a crate's sources, definitions and proofs, by their paths in its folder."""
        folder = self.root / "crates" / crate
        return {
            str(path.relative_to(folder)): path.read_text()
            for part in ("src", "specs", "proofs")
            for path in sorted((folder / part).rglob("*"))
            if path.suffix in COMMENTS
        }

    def units(self, crate):
        """The sources of a crate in parts."""
        files = self.kept("files", crate, self.files).items()
        return [units_of(f"{crate}/{file}", text) for file, text in files if file.endswith(".rt")]

    def defined(self, crate):
        """What a crate states in its definitions and lemmas, but for what proves its functions."""
        return [
            Stated.of(unit, unit.text)
            for file, text in self.kept("files", crate, self.files).items()
            if file.endswith(".antt") and not is_answer(file)
            for unit in definitions_of(f"{crate}/{file}", plain(text, ".antt"))
        ]

    def own(self, crate):
        """What a crate states, as it sees that itself, in parts, each with its text."""
        units = [unit for units in self.kept("units", crate, self.units) for unit in units]
        return [Stated.of(it, said(stated(it.text), ".rt")) for it in units] + self.kept("defined", crate, self.defined)

    def seen(self, crate):
        """The same as a crate above sees it."""
        sources = self.kept("units", crate, self.units)
        private = private_types(unit for units in sources for unit in units)
        units = [unit for units in sources for unit in hidden(from_above(units), private)]
        sources = [Stated.of(it, said(stated(it.text), ".rt")) for it in units if not it.is_of_its_crate()]
        return sources + self.kept("defined", crate, self.defined)

    def whole(self, crate):
        """All that a crate says."""
        return [*self.kept("files", crate, self.files).items()]

    def changed(self, edit):
        """The function whose body an edit changes. None where it changes another thing, more than one, or a function
        without a contract, which proves nothing by itself."""
        files = self.kept("files", edit.crate, self.files)
        functions = {function_at(file, files.get(file, ""), old) for file, old in places_of(edit.text)}
        return functions.pop() if len(functions) == 1 else None

    def proved(self, crate, function):
        """A function with what proves it, or it and the others of its cycle."""
        folders = {function.name, *(f"+{it}" for it in CYCLE.findall(function.text))}
        files = self.kept("files", crate, self.files).items()
        answers = [(path, text) for path, text in files if folders & set(folders_of_proof(path))]
        return [(function.file, function.text), *answers]

    def index(self, crates):
        """What these crates state, as the first of them reads it."""
        own, *others = crates
        seen = [it for crate in others for it in self.kept("seen", crate, self.seen)]
        return Index([*self.kept("own", own, self.own), *seen])

    def reached(self, edit, texts, owner, names):
        """What the outcome can depend on, of the statements of these crates: what is named from the edit, these texts
        and the type whose function is changed on."""
        found = Reached()
        found.words |= {owner} - {None}
        for file in {file for file, _old in places_of(edit.text)}:
            found.body(f"{edit.crate}/{file}", edit.text)
        for file, text in texts:
            found.body(f"{edit.crate}/{file}", plain(text, Path(file).suffix))
        return sorted({(it.unit.file, it.text) for it in found.all_of(self.kept("index", names, self.index))})

    def of(self, edit):
        names = (edit.crate, *below(self.rows, edit.crate))
        function = self.changed(edit)
        owner = function and function.owner
        texts = self.proved(edit.crate, function) if function else self.kept("whole", edit.crate, self.whole)
        parts = [
            FORM,
            edit.text,
            [(file, said(text, Path(file).suffix)) for file, text in texts],
            self.reached(edit, texts, owner, names),
            [(name, self.rows[name]) for name in names],
        ]
        return hashlib.sha256(repr(parts).encode()).hexdigest()[:16]
