"""The wrong bodies of the repository. Those of one source, src/FILE.rt of a crate, stand in its wrong-bodies/FILE.edits:
a line `file: src/FILE.rt`, then a line `name: ` and the pairs of each. What is blank or begins with # is no part of
them. Those of must-fail/, which the kit reads, are a file each."""
from dataclasses import dataclass, field
from pathlib import Path

FOLDERS = ("wrong-bodies", "must-fail")
READ = ("name: ", "file: ", "old: ", "new:")


@dataclass(frozen=True, order=True)
class Edit:
    """One wrong body, in a crate's folder of them, with its text as the kit reads it."""

    crate: str
    folder: str
    name: str
    text: str = field(default="", compare=False, repr=False)

    def __str__(self):
        return f"{self.crate}/{self.folder}/{self.name}"


def texts_in(path, source):
    """The name and the text of each wrong body of a source. A file of another form stops the tool."""
    lines = [line for line in path.read_text().split("\n") if line and not line.startswith("#")]
    starts = [at for at, line in enumerate(lines) if line.startswith("name: ")]
    if lines[: (starts or [None])[0]] != [f"file: {source}"]:
        raise SystemExit(f"{path}: it doesn't begin with the line 'file: {source}', and then a name")
    for line in lines:
        if not line.startswith(READ):
            raise SystemExit(f"{path}: it has a line that isn't read: {line}")
    for start, end in zip(starts, [*starts[1:], len(lines)]):
        text = [lines[0], *lines[start + 1 : end]]
        yield lines[start].removeprefix("name: "), "".join(f"{line}\n" for line in text)


def texts_of(folder):
    """The texts in a crate's folder of wrong bodies, by their names."""
    if folder.name == "must-fail":
        return {path.stem: path.read_text() for path in folder.glob("*.edit")}
    found = {}
    for path in sorted(it for it in folder.rglob("*") if it.is_file()):
        if path.suffix != ".edits":
            raise SystemExit(f"{path}: wrong bodies stand in a file .edits for each source")
        source = Path("src", path.relative_to(folder)).with_suffix(".rt").as_posix()
        for name, text in texts_in(path, source):
            if name in found:
                raise SystemExit(f"{path}: two wrong bodies of its crate are named {name}")
            found[name] = text
    return found


def edits_below(root, folders, names=()):
    """The edits in these folders of the crates named (of all, where none is), in order."""
    return sorted(
        Edit(path.parent.name, folder, name, text)
        for folder in folders
        for path in Path(root).glob(f"crates/*/{folder}")
        if not names or path.parent.name in names
        for name, text in texts_of(path).items()
    )


def body_fault(text):
    """Why the text of an edit is no wrong body, or None: an edit of a definition or a proof shows nothing of a
    contract."""
    files = [line.removeprefix("file:").strip() for line in text.splitlines() if line.startswith("file:")]
    if not files:
        return "it names no file"
    other = [file for file in files if not file.startswith("src/")]
    return f"it changes {other[0]}, which is no body" if other else None


def places_of(text):
    """The places that the text of an edit changes: a file, and the line that it finds there."""
    file = ""
    for line in text.splitlines():
        if line.startswith("file: "):
            file = line.removeprefix("file: ").strip()
        elif line.startswith("old: "):
            yield file, line.removeprefix("old: ")
