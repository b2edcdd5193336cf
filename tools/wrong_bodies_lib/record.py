"""What was seen refused: tools/refused.txt, one line for each wrong body and kit: the sum of all that it depends on, its
name, how, and by which kit."""
import fcntl
import os
from pathlib import Path

HEAD = (
    "# The wrong bodies that the prover was seen to refuse; tools/wrong_bodies writes this. "
    "A line: sum, wrong body, how, kit (tools/README.md).\n"
)


def read(text):
    """A dict from each name and kit to the sum and how it was refused."""
    rows = {}
    for line in text.splitlines():
        words = line.split()
        if len(words) == 4 and not line.startswith("#"):
            rows[words[1], words[3]] = words[0], words[2]
    return rows


def written(rows):
    return HEAD + "".join(f"{rows[key][0]} {key[0]} {rows[key][1]} {key[1]}\n" for key in sorted(rows))


class Record:
    """What one kit refused, in the file, which several runs may write: each change reads it anew and puts a whole file
    in its place. What other kits refused stays."""

    def __init__(self, path, kit):
        self.path, self.kit = Path(path), kit

    def all_rows(self):
        return read(self.path.read_text()) if self.path.exists() else {}

    def rows(self):
        return {name: row for (name, kit), row in self.all_rows().items() if kit == self.kit}

    def rows_of_others(self):
        """What other kits refused, a list by name."""
        made = {}
        for (name, kit), row in self.all_rows().items():
            if kit != self.kit:
                made.setdefault(name, []).append(row)
        return made

    def names(self):
        return {name for name, _kit in self.all_rows()}

    def stands(self, edit, sum):
        return self.rows().get(str(edit), ("", ""))[0] == sum

    def put(self, edit, sum, how):
        self.change(lambda rows: rows.update({(str(edit), self.kit): (sum, how)}))

    def drop(self, name):
        self.change(lambda rows: rows.pop((str(name), self.kit), None))

    def forget(self, name):
        """Drops what any kit refused under this name."""
        self.change(lambda rows: [rows.pop(key) for key in [*rows] if key[0] == name])

    def change(self, step):
        folder = os.open(self.path.parent, os.O_RDONLY)
        try:
            fcntl.flock(folder, fcntl.LOCK_EX)
            rows = self.all_rows()
            step(rows)
            new = self.path.with_suffix(".new")
            new.write_text(written(rows))
            os.replace(new, self.path)
        finally:
            os.close(folder)
