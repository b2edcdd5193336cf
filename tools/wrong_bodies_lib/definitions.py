"""The parts of a file of definitions and lemmas, each of which counts where one of its names is reached.

A proof reads of them what it names: antt has no instances and no set of lemmas that a tactic takes by itself, only the
list that stands at its call, a `ruleset` that is named there, or the `using(..)` of an attribute. What acts without a
name counts always: an operator, which a `do` may use, how it binds, what passes names on, and what isn't laid out as
expected."""
import re

from .reach import Unit, imports

LEAD = re.compile(r"(?:(?:abbrev|unfoldable|pub) )*")
HEAD = re.compile(r"(record|data|ruleset|mutual|module|pattern|infix[lr]?)(?: |$)")
MODULE = re.compile(r"(?:pub )?mod ([^\W\d]\w*)")
INNER = re.compile(r"(?: {2}| {4})(?=[\w◌«\[])")  # before what a block declares
NAMES = re.compile(r"[^\s(){}:=]+(?: [^\s(){}:=]+)*(?= ?[:({=]| where\b|$)")
ALL = re.compile(r"(?<!◌)\*")  # of a module
CONTINUES = (" ", ")", "}", "]", "unfolding ")
TERMS = {"let", "in", "elim", "λ", "use", "open", "where", "unfolding"}


def parts_of(lines):
    """The lines of a file in parts: each that begins at the margin, with those that go on with it."""
    found = []
    for line in lines:
        if found and line.startswith(CONTINUES):
            found[-1].append(line)
        else:
            found.append([line])
    return found


def names_in(line):
    """What is named at the head of a declaration, before its type, its parameters or its value."""
    line = LEAD.sub("", line, count=1)
    if head := HEAD.match(line):
        line = line[head.end() :]
    found = NAMES.match(line)
    return [name for name in found[0].split() if name != "_"] if found else []


def is_signature(line):
    return " :" in line.partition(" = ")[0]


def names_within(lines):
    """What is named in a block: fields, constructors, and what is declared together."""
    heads = [line[INNER.match(line).end() :] for line in lines if INNER.match(line) and is_signature(line)]
    return [name for head in heads if head.split()[0] not in TERMS for name in names_in(head)]


def declared(lines):
    """All the names that a declaration makes: none where it acts without one. None: it is no declaration."""
    kind = HEAD.match(LEAD.sub("", lines[0], count=1))
    if kind and kind[1].startswith(("infix", "pattern")):
        return ()
    names = names_in(lines[0])
    if kind:
        return (*names, *names_within(lines[1:]))
    return tuple(names) if is_signature(lines[0]) else None


def place_of(line, found):
    """Which of the declarations that were found an equation belongs to. One of an operator may begin with anything."""
    name, last = line.split()[0], len(found) - 1
    of_operator = last if found and is_operator(found[last][1]) and not is_signature(line) else None
    return next((at for at in range(last, -1, -1) if name in found[at][1]), of_operator)


def is_operator(names):
    return any("◌" in name or not re.search(r"\w", name) for name in names)


def defined(file, names, text):
    if not names or is_operator(names):
        return Unit(file, 0, 0, "definition", None, None, text)
    module = file.rpartition("/")[2].removesuffix(".antt")
    is_named = module != "Lib" and module[:1].isupper()
    return Unit(file, 0, 0, "definition", names[0], module if is_named else None, text, names)


def definitions_of(file, text):
    """The units of a file without comments and blank lines. What stands in a folder of proofs/ is a part of another
    proof, and counts whole where it is named."""
    *_folders, folder, name = file.removesuffix(".antt").split("/")
    if file.count("/") > 2:
        return [Unit(file, 0, 0, "definition", name, folder, text, (name,))]
    units, found = [], []
    for lines in parts_of(text.split("\n") if text else []):
        part = "\n".join(lines)
        if part.startswith("use ") and not ALL.search(part):
            units += imports(file, 0, 0, " ".join(part.split()) + ";")
        elif module := MODULE.fullmatch(part):
            units.append(Unit(file, 0, 0, "module", module[1], None, part))
        elif (at := place_of(part, found)) is not None:
            found[at][0].append(part)
        elif (names := declared(lines)) is not None:
            found.append(([part], names))
        else:
            return [defined(file, (), text)]
    return units + [defined(file, names, "\n".join(texts)) for texts, names in found]
