"""What a crate above sees of a type whose fields are private and that has an `impl Model`: the `Value`, and neither
those fields nor the view.

No other crate can open such a value, and while it is closed a proof knows only its `Value`: what its view or its
invariant tells is known above only where a contract says it, and then it is the contract that counts. The inside counts
all the same where a proof names it, or what goes by the fields: the modules that are generated of them, that values
cross threads, sizes (`reach.words`). A type counts whole whose other parts speak of its fields: its `inverse`, what it
owns, a derive but that of `Drop`, a lifetime."""
import re
from dataclasses import replace

from .reach import ANY_INSIDE, blocks, words

STRUCT = re.compile(r"(?:pub(?:\([a-z]+\))? )?struct (\w+)(?:<[^{}']*>)? \{$", re.MULTILINE)
DECLARED = re.compile(r"^(pub(?:\([a-z]+\))? )?(?:struct|enum) (\w+)", re.MULTILINE)
MODEL = re.compile(r"impl(?:<[^{}']*>)? Model for (\w+)(?:<[^{}']*>)? \{$", re.MULTILINE)
PRIVATE_FIELD = re.compile(r" {4}(?:pub\([a-z]+\) )?\w+: ")
MEMBER = re.compile(r" {4}ghost (\w+)")
SEEN, UNSEEN = {"Value", "coded", "size"}, {"view", "invariant", "size_decreases"}
OTHER_ATTRIBUTE = re.compile(r"#!?\[(?!derive\(Drop\)\]|cycle\(\w+\)\]|must_use\])")
USE = re.compile(r" *ghost use ([\w.]+)\.\{([^{}]*)\};\s*")


def parts_of(text, header):
    """The lines to a header's brace, the items within with the line of each, and the lines from the last brace on."""
    lines = text.split("\n")
    opens = text[: header.end()].count("\n")
    closes = lines.index("}", opens)
    within = [
        (lines[head], "\n".join(lines[first:end])) for first, head, end in blocks(lines, opens + 1, closes, "    ")
    ]
    return "\n".join(lines[: opens + 1]), within, "\n".join(lines[closes:])


def seen_of_struct(text):
    """A struct without its private fields. None: it counts whole."""
    header = STRUCT.search(text)
    if header is None or OTHER_ATTRIBUTE.search(text):
        return None
    start, fields, end = parts_of(text, header)
    return "\n".join([start, *(field for line, field in fields if not PRIVATE_FIELD.match(line)), end])


def is_used(name, text):
    name = name.rpartition(" as ")[2]
    return name in words(text) or not name.isidentifier() and all(sign in text for sign in name.split("◌"))


def seen_of_import(item, seen):
    """An import of a block with only what is used by what is seen."""
    use = USE.fullmatch(item)
    names = [name.strip() for name in use[2].split(",")] if use else []
    return f"    ghost use {use[1]}.{{{', '.join(it for it in names if is_used(it, seen))}}};" if use else item


def seen_of_model(text):
    """An `impl Model` without what speaks of the fields. None: it counts whole."""
    header = MODEL.search(text)
    if header is None or OTHER_ATTRIBUTE.search(text):
        return None
    start, items, end = parts_of(text, header)
    members = [((MEMBER.match(line) or [line, line])[1], item) for line, item in items]
    kinds = {kind for kind, _item in members}
    if not {"Value", "view"} <= kinds or kinds - SEEN - UNSEEN - {"use"}:
        return None
    seen = "\n".join(item for kind, item in members if kind in SEEN)
    kept = [seen_of_import(item, seen) if kind == "use" else item for kind, item in members if kind not in UNSEEN]
    return "\n".join([start, *(it for it in kept if ".{}" not in it), end])


def private_types(units):
    """The names of a crate's structs and enums that are never public, which no source of another crate can name."""
    found = {True: set(), False: set()}
    for unit in units:
        if unit.kind == "type" and (declared := DECLARED.search(unit.text)):
            found[declared[1] == "pub "].add(declared[2])
    return found[False] - found[True]


def hidden(units, private):
    """The units with those of private types marked as such."""
    return [replace(it, kind="private") if it.kind == "type" and it.name in private else it for it in units]


def from_above(units):
    """The units of a source as another crate sees them."""
    of_models, of_structs = {}, {}
    for unit in units:
        if unit.kind == "type" and (header := MODEL.search(unit.text)):
            of_models[header[1]] = unit, seen_of_model(unit.text)
        elif unit.kind == "type" and (header := STRUCT.search(unit.text)):
            of_structs[header[1]] = unit, seen_of_struct(unit.text)
    found = {unit: [unit] for unit in units}
    for name in of_models.keys() & of_structs.keys():
        pair = of_models[name], of_structs[name]
        if all(text is not None for _unit, text in pair):
            found |= {unit: [replace(unit, text=text), inside(unit, name)] for unit, text in pair}
    return [it for unit in units for it in found[unit]]


def inside(unit, name):
    return replace(unit, kind="inside", owner=name, names=(f"{name}.TheInside", ANY_INSIDE))
