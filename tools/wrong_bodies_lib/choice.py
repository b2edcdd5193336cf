"""Which wrong bodies a run tries: those whose sum isn't the recorded one, and of the others all, a share, or none."""
import hashlib
from dataclasses import dataclass, field
from enum import Enum

SHARE = 8
ANY = "-"  # the sum of what was refused before sums left out the kit


class Mode(Enum):
    ALL = "each"
    PART = "each that isn't recorded, and a share of one crate's others"
    CHANGED = "each that isn't recorded"


@dataclass
class Recorded:
    """The sum of each wrong body that was refused, and how: by this kit, and by others, where it is a list."""

    rows: dict
    others: dict = field(default_factory=dict)

    def is_refused(self, edit, sum):
        """Whether this kit refused it as it is."""
        return self.rows.get(str(edit), ("", ""))[0] == sum

    def is_anothers(self, edit, sum):
        """Whether another kit refused it as it is, or any before sums left out the kit."""
        others = [row[0] for row in self.others.get(str(edit), ())]
        return sum in others or ANY in (*others, self.rows.get(str(edit), ("",))[0])


def shares(edits, most):
    """The wrong bodies in shares of so many at most, each of one crate, since what a crate stands on is read once for
    several of them."""
    made = []
    for crate in sorted({it.crate for it in edits}):
        own = sorted(
            (it for it in edits if it.crate == crate), key=lambda it: hashlib.sha256(str(it).encode()).hexdigest()
        )
        count = -(-len(own) // most)
        made += [own[number::count] for number in range(count)]
    return made


def chosen(edits, sums, recorded, mode, commits, most=SHARE):
    """Two lists: what must be tried, and what is tried again as far as time allows; the others stand by the record.
    What only another kit refused, or one by a sum that isn't known, comes first of those; each share has its turn once in as many commits in a row as
    there are shares."""
    mine = {it for it in edits if recorded.is_refused(it, sums[it])}
    anothers = {it for it in edits if it not in mine and recorded.is_anothers(it, sums[it])}
    must = [it for it in edits if mode is not Mode.PART and (mode is Mode.ALL or it not in mine)]
    if mode is not Mode.PART:
        return must, []
    made = shares(edits, most)
    in_turn = set(made[commits % len(made)]) if made else set()
    again = [it for it in edits if it in anothers] + [it for it in edits if it in mine and it in in_turn]
    return [it for it in edits if it not in mine and it not in anothers], again


def crates_in_turn(names, commits):
    """The crates in an order that begins elsewhere at each commit, so that a run which ends early doesn't always leave
    out the same."""
    names = sorted(names)
    at = commits % len(names) if names else 0
    return names[at:] + names[:at]
