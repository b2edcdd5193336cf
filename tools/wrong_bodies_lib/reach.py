"""What an outcome can depend on of the sources: the function that an edit changes, and what is stated of all that is
named from there on.

Names are taken as words, whatever they stand for. So more is reached than can matter, and not less: an executable
function by its name in code, since contracts name definitions; a definition or a lemma by a name of its own where its
module is named too, which no other file can leave out; all else by its name anywhere."""
import functools
import re
from dataclasses import dataclass

WORD = re.compile(r"[^\W\d]\w*")
HEAD = re.compile(r"\bfn (\w+)|\b(?:struct|enum|union|trait|type|const|static|macro_rules!) (?!fn )(\w+)")
MODULE = re.compile(r"(?:pub(?:\([a-z]+\))? )?mod (\w+);")
USE = re.compile(r"((?:pub(?:\([a-z]+\))? )?(?:ghost )?use )(.*);$", re.DOTALL)
IMPL = re.compile(r"(?:unsafe )?impl\b")
CONSTANT = re.compile(r"\b(?:const|static|macro_rules)\b")  # its value stands in what is stated
IS_PUBLIC = re.compile(r"^ *pub ", re.MULTILINE)
CLAUSE = re.compile(r" *(?:requires|ensures|decreases)\b")
# What names the inside of a type; and what goes by the fields of whatever types, which is taken for the name of each.
INSIDE = re.compile(r"\b[A-Z]\w*\.TheInside\b")
BY_FIELDS = re.compile(
    r"(?<![A-Za-z0-9_]\.)\bTheInside\b|\bThe(?!(?:Variants|Impl|Inside)\b)[A-Z]\w*|\b[a-z]\w*\.TheInside\b"
    r"|\bthe_(?:send|sync|row(?!\.coded))\b|\bIs(?:Send|Sync)\b|\bThreads\b|\b(?:size|align)_of(?:_val)?\b"
)
ANY_INSIDE = "*.TheInside"
PATH = re.compile(r"[^\s(){}\[\],;.:]+(?:(?:\.|::)[^\s(){}\[\],;.:]+)+")
GROUP = re.compile(r"(\w+)(?:\.|::)\{(?=([^{}]*)([{}]))")  # of names below one module
LIBRARY = re.compile(r"\bRattle\.(\w+)\.([\w.]*)(?:\{([^{}]*))?")
# What a proof says of an executable function stands below one of these.
OF_FUNCTIONS = re.compile(r"\.(?:contracts|proofs)\.")


@dataclass(frozen=True)
class Unit:
    """A part of a source that is reached as one: an item, a function of an `impl`, or one import."""

    file: str
    first: int  # line
    last: int
    # "function", "import", "module", "type", "private" (a type of another crate), "inside" (of a type), "definition",
    # "attribute" (of its crate) or "other"
    kind: str
    name: str | None  # None: it goes with its file, or with its crate
    owner: str | None  # the type whose function or inside it is, or the module of a definition
    text: str
    names: tuple = ()  # all that a definition makes; of an inside, what reaches it

    def is_of_its_crate(self):
        """Whether it is nothing to another crate: a function that none can name, or an attribute."""
        is_private = not IS_PUBLIC.search(self.text) and not CONSTANT.search(self.text)
        return self.kind == "attribute" or self.kind == "function" and is_private

    def keys(self):
        """The words of which one stands wherever it is reached. None: it may be reached without one."""
        if self.kind == "definition":
            return {max(WORD.findall(name), key=len, default=None) for name in self.names} or {None}
        return self.names or (self.name,)


def crate_of(file):
    return file.partition("/")[0]


@functools.lru_cache(maxsize=None)
def words_of(name):
    return frozenset(WORD.findall(name)) or frozenset([name])


@functools.lru_cache(maxsize=None)
def words(text):
    """The words of a text, and what it names by more than a word."""
    marks = [*INSIDE.findall(text), *([ANY_INSIDE] if BY_FIELDS.search(text) else [])]
    return frozenset([*WORD.findall(text), *marks, *named_below(text), *named_of_crates(text)])


def named_below(text):
    """Each name in a text with the module that it is said to be of, as `Module.name`; `Module.*` where all of a module
    may be meant. Modules are files, whose names begin with a capital."""
    for path in PATH.finditer(text):
        *parts, last = re.split(r"\.|::", path[0])
        yield from (f"{module}.{it}" for module, it in zip(parts, [*parts[1:], last]) if module[:1].isupper())
        if not text.startswith((".{", "::{"), path.end()):
            yield f"{parts[-1] if last == '*' else last}.*"
    for module, names, end in GROUP.findall(text):
        yield from (f"{module}.{name.partition(' as ')[0].strip()}" for name in names.split(","))
        if end == "{":
            yield f"{module}.*"


def named_of_crates(text):
    """Each name that a text says to be of a crate, as `crate::name`."""
    for crate, path, names in LIBRARY.findall(text):
        yield from (f"{crate}::{name}" for name in WORD.findall(f"{path} {names}"))


def of_functions(text):
    """The words that name functions in a definition or a proof: beside what stands below their contracts or proofs."""
    return frozenset().union(*(words(line) for line in text.split("\n") if OF_FUNCTIONS.search(line)))


def code(text):
    """A text without the contracts of its functions. That of a closure may be followed by a body of one line."""
    kept, is_clause = [], False
    for line in text.split("\n"):
        if CLAUSE.match(line):
            is_clause = True
        elif line.lstrip().startswith("{"):
            is_clause = False
        if not is_clause:
            kept.append(line)
        elif line.endswith(";"):
            is_clause = False
    return "\n".join(kept)


def blocks(lines, start, end, indent):
    """The items at an indent, of the lines from start to before end: the first line of each, its head and its end.
    Comments and attributes belong to what follows, but for an attribute of the whole."""
    first = head = None
    is_led = False
    for at in range(start, end):
        line = lines[at]
        if not line.startswith(indent) or line[len(indent) : len(indent) + 1] in ("", " ", "}", ")", "]", ">", "{"):
            continue
        text = line[len(indent) :]
        if text.startswith("where"):
            continue
        if first is not None and not is_led:
            yield first, head, at
            first = None
        if first is None:
            first = at
        head, is_led = at, text.startswith(("#", "//")) and not text.startswith("#![")
    if first is not None:
        yield first, head, end


def type_of(header):
    """The name of the type that an `impl` is for, and whether it is of a trait."""
    text = re.sub(r"^(?:unsafe )?impl\s*", "", header)
    if text.startswith("<"):
        depth = 0
        for at, mark in enumerate(text):
            depth += (mark == "<") - (mark == ">" and text[at - 1] not in "-=")
            if depth == 0:
                text = text[at + 1 :]
                break
    is_of_trait = re.search(r"\bfor\b(?!<)", text.partition("{")[0]) is not None
    text = re.split(r"\bfor\b(?!<)", text)[1] if is_of_trait else text
    path = re.match(r"[&\s]*(?:'\w+ )?(?:mut |dyn )*((?:\w+::)*\w+)", text)
    return (path[1].rpartition("::")[2] if path else None), is_of_trait


def imports(file, first, last, text):
    """One unit for each name that an import brings; one for all of them where they are nested."""
    lead, path = USE.match(text).groups()
    base, _, inner = " ".join(path.split()).partition("{")
    if "{" in inner:
        return [Unit(file, first, last, "import", "", None, text)]
    leaves = [base + it.strip() for it in inner.rstrip("} ").split(",") if it.strip()] or [base]
    # An operator is imported with marks where its operands stand. That of a `do` isn't written there.
    names = [re.split(r"::|\.(?=\S)|\bas\s", it)[-1].strip() for it in leaves]
    kinds = ["other" if name.startswith("◌>") else "import" for name in names]
    return [Unit(file, first, last, kind, name, None, lead + it) for kind, name, it in zip(kinds, names, leaves)]


def units_of(file, text):
    """The units of a source in rt fmt's layout."""
    lines = text.split("\n")
    found = []
    for first, head, end in blocks(lines, 0, len(lines), ""):
        whole = "\n".join(lines[first:end])
        line = lines[head]
        from_head = "\n".join(lines[head:end])
        if re.match(r"(?:pub(?:\([a-z]+\))? )?(?:ghost )?use ", line):
            found += imports(file, first, end, from_head.strip())
        elif MODULE.match(line):
            kind, name = ("attribute", None) if "#[" in whole else ("module", MODULE.match(line)[1])
            found.append(Unit(file, first, end, kind, name, None, whole))
        elif line.startswith("#!["):
            found.append(Unit(file, first, end, "attribute", None, None, whole))
        elif IMPL.match(line):
            found += parts_of_impl(file, lines, first, head, end)
        else:
            name = HEAD.search(line)
            kind = "other" if not name else "function" if name[1] else "type"
            found.append(Unit(file, first, end, kind, name and (name[1] or name[2]), None, whole))
    return found


def parts_of_impl(file, lines, first, head, end):
    """The functions of a type one by one, beside what else stands in the `impl`; that of a trait as one."""
    opens = next((at for at in range(head, end) if lines[at].endswith(("{", "{}"))), head)
    owner, is_of_trait = type_of(" ".join(lines[head : opens + 1]))
    if is_of_trait:
        return [Unit(file, first, end, "type", owner, None, "\n".join(lines[first:end]))]
    found, rest = [], lines[first : opens + 1]
    closes = next((at for at in range(end - 1, opens, -1) if lines[at] == "}"), end)
    for start, at, stop in blocks(lines, opens + 1, closes, "    "):
        name = HEAD.search(lines[at])
        if name and name[1]:
            found.append(Unit(file, start, stop, "function", name[1], owner, "\n".join(lines[start:stop])))
        else:
            rest += lines[start:stop]
    return [Unit(file, first, opens + 1, "type", owner, None, "\n".join(rest))] + found


@dataclass(frozen=True)
class Stated:
    """What is stated of a unit, with its words."""

    unit: Unit
    text: str
    words: frozenset
    code: frozenset  # what of it may name functions

    @classmethod
    def of(cls, unit, text):
        is_renamed = unit.kind == "import" and " as " in text
        is_source = unit.kind != "definition" and not unit.file.endswith(".antt")
        has_value = is_source and (is_renamed or unit.kind == "other" or CONSTANT.search(text) is not None)
        return cls(unit, text, words(text), words(text) if has_value else of_functions(text))


class Reached:
    """What is reached from some text on."""

    def __init__(self):
        self.words, self.code = set(), set()
        self.files = {}  # what is reached of each source: words and text
        self.crates = {}  # the words of what is reached of each crate

    def body(self, file, text):
        """A function, or a part of it."""
        self.words |= words(text)
        self.code |= words(code(text))
        self.source(file, text, words(text))

    def source(self, file, text, found):
        """A part of a source, with its words, by which that source's imports are reached."""
        known, texts = self.files.setdefault(file, (set(), []))
        known |= found
        texts.append(text)
        self.crates.setdefault(crate_of(file), set()).update(found)

    def has(self, unit):
        if unit.kind == "function":
            return unit.name in self.code and (unit.owner is None or unit.owner in self.words)
        if unit.kind == "private":
            return self.has_private(unit.name, crate_of(unit.file))
        if unit.kind == "inside":  # One of its names is reached.
            return unit.owner in self.words
        return unit.name is None or (self.has_definition(unit) if unit.names else unit.name in self.words)

    def has_private(self, name, crate):
        """Whether a type that no source of another crate can name is named in its own, or by a path through it."""
        return f"{crate}::{name}" in self.words or name in self.crates.get(crate, ())

    def has_definition(self, unit):
        """Whether a name that it makes is reached: in its own file, or with its module."""
        is_open = unit.owner is None or f"{unit.owner}.*" in self.words
        known = self.words if is_open else self.files[unit.file][0] if unit.file in self.files else frozenset()
        return any(f"{unit.owner}.{name}" in self.words or words_of(name) <= known for name in unit.names)

    def has_import(self, unit):
        """Whether something that is reached of its source has the name, or the signs of an operator."""
        known, texts = self.files[unit.file]
        if unit.kind == "other" or unit.name in known:
            return True
        return not WORD.fullmatch(unit.name) and any(all(it in text for it in unit.name.split("◌")) for text in texts)

    def take(self, it):
        """What is stated of a unit that is reached."""
        self.words |= it.words
        self.code |= it.code
        if it.unit.kind in ("function", "type", "private", "inside", "definition"):
            self.source(it.unit.file, it.text, it.words)

    def all_of(self, index):
        """Those that are reached, with what they reach in turn."""
        found, left, read = {}, {}, {}
        new = self.words | {None}
        while True:
            named = (it for name in index.by_name.keys() & new for it in index.by_name[name])
            left |= {id(it): it for it in named if id(it) not in found}
            more = [it for it in left.values() if self.has(it.unit)] or self.more_imports(index, found, read)
            if not more:
                return list(found.values())
            new = frozenset().union(*(it.words for it in more)) - self.words
            for it in more:
                left.pop(id(it), None)
                found[id(it)] = it
                self.take(it)

    def more_imports(self, index, found, read):
        """The imports that are reached of the sources of which something more is, where so many parts had been read."""
        more = []
        for file in index.by_file.keys() & self.files.keys():
            count = len(self.files[file][1])
            if read.get(file) != count:
                read[file] = count
                more += [it for it in index.by_file[file] if id(it) not in found and self.has_import(it.unit)]
        return more


class Index:
    """What is stated, by how it is reached."""

    def __init__(self, stated):
        self.by_name, self.by_file = {}, {}
        for it in stated:
            if it.unit.kind in ("import", "other"):
                self.by_file.setdefault(it.unit.file, []).append(it)
            else:
                for name in it.unit.keys():
                    self.by_name.setdefault(name, []).append(it)
