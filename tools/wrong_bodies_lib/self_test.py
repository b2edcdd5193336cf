"""Looks whether tools/wrong_bodies finds out what it should: its parts that need no prover, and all of it on a copy of
the cheapest crate with wrong bodies of its own."""
import shutil
import sys
import unittest
from pathlib import Path

from . import batches, choice, edits, kit, lanes, record, sums, sums_test
from .choice import Mode
from .edits import Edit
from .record import Record
from .room import copied
from .sums_room import HIGH, Room, edit
from .trying import Run, Wish

CRATE = "test_support"
PLACE = "old:             calls: 0,\nnew: "
BESIDE = "old: self.calls.saturating_add(1)\nnew: "
APART = "old: let count = buf.len().min(self.step.max(1));\nnew: "
# No commits are counted in the copy: of those that the record has as they are, the first share has
# 'harmless_but_recorded', and not 'stands_by_the_record'.
EDITS = {
    "writer": {
        "refused": PLACE + "            calls: 1,\n",
        "stands_by_the_record": PLACE + "            calls: 2,\n",
        "recorded_wrongly": PLACE + "            calls: 3,\n",
        "harmless_but_recorded": PLACE + "            calls: 0 + 0,\n",
        "changes_nothing": PLACE + "            calls: 0 + 0,\n",
        "does_not_parse": PLACE + "            calls: 0 0,\n",
        "has_another_type": PLACE + '            calls: "none",\n',
        "does_not_fit": PLACE.replace("calls", "no_such_field") + "            calls: 1,\n",
        "changes_a_definition": "file: specs/writer.rt\n" + PLACE + "            calls: 1,\n",
        "changes_nothing_beside_others": APART + "let count = buf.len().min(self.step.max(1)).max(0);\n",
    },
    "reader": {"refused_beside_others": BESIDE + "self.calls.saturating_add(2)\n"},
}
WANTED = {
    "refused": "proof",
    "stands_by_the_record": None,
    "recorded_wrongly": "proof",
    "harmless_but_recorded": "NOT REFUSED",
    "changes_nothing": "NOT REFUSED",
    "does_not_parse": "BAD EDIT",
    "has_another_type": "BAD EDIT",
    "does_not_fit": "BAD EDIT",
    "changes_a_definition": "which is no body",
    "refused_beside_others": "proof",
    "changes_nothing_beside_others": "NOT REFUSED",
}

GB = 1_000_000_000


class Edits(Room):
    def test_which_there_are(self):
        self.write("crates/low/must-fail/two.edit", "file: src/lib.rt\n")
        self.write("crates/low/wrong-bodies/a/b.edits", "file: src/a/b.rt\n\nname: c\nold: d\nfile: src/e.rt\nnew:\n")
        self.assertEqual(
            [str(it) for it in edits.edits_below(self.root, ("wrong-bodies",))],
            [f"high/wrong-bodies/{it}" for it in ("of_bare", "of_size", "of_turn")]
            + [f"low/wrong-bodies/{it}" for it in ("c", "of_area")],
        )
        found = {it.name: it.text for it in edits.edits_below(self.root, edits.FOLDERS, ("low",))}
        self.assertEqual([*found], ["two", "c", "of_area"])
        self.assertEqual(found["two"], "file: src/lib.rt\n")
        self.assertEqual(found["c"], "file: src/a/b.rt\nold: d\nfile: src/e.rt\nnew:\n")
        self.assertEqual(found["of_area"], "file: src/lib.rt\nold: helper(shape)\nnew: helper(shape) + 1\n")

    def test_what_is_told_of_a_file(self):
        for path, text, why in (
            ("a.edit", "file: src/a.rt\nold: a\nnew: b\n", "a file .edits for each source"),
            ("a.edits", "file: src/b.rt\n\nname: c\nold: a\nnew: b\n", "'file: src/a.rt'"),
            ("a.edits", "name: c\nold: a\nnew: b\n", "'file: src/a.rt'"),
            ("a.edits", "file: src/a.rt\nold: a\nnew: b\n", "and then a name"),
            ("a.edits", "file: src/a.rt\n\nname: c\nodl: a\nnew: b\n", "isn't read: odl: a"),
            ("a.edits", "file: src/a.rt\n\nname: of_area\nold: a\nnew: b\n", "two wrong bodies .* named of_area"),
            ("a.edits", "file: src/a.rt\n\nname: c\nold: a\nnew: b\nname: c\n", "two wrong bodies .* named c"),
        ):
            self.write(f"crates/low/wrong-bodies/{path}", text)
            with self.assertRaisesRegex(SystemExit, why):
                edits.edits_below(self.root, edits.FOLDERS)
            (self.root / "crates/low/wrong-bodies" / path).unlink()

    def test_only_bodies(self):
        self.assertIsNone(edits.body_fault("file: src/lib.rt\nold: a\nnew: b\n"))
        self.assertIn("specs/", edits.body_fault("file: src/lib.rt\nold: a\nnew: b\nfile: specs/A.antt\n"))
        self.assertIn("no file", edits.body_fault("old: a\nnew: b\n"))

    def test_the_places(self):
        text = "file: src/a.rt\nold: one: 1\nnew: 2\nold: b\nnew: c\nfile: src/d.rt\nold:  e\nnew:\n"
        self.assertEqual([*edits.places_of(text)], [("src/a.rt", "one: 1"), ("src/a.rt", "b"), ("src/d.rt", " e")])

    def test_the_function_at_a_place(self):
        for line, wanted in (("area(shape, limit())", "size"), ("    4", None), ("fn size", None), ("    } ", None)):
            found = sums.function_at("src/lib.rt", HIGH, line)
            self.assertEqual(found and found.name, wanted)


class Records(Room):
    def test_written_is_read(self):
        kept = record.Record(self.root / "refused.txt", "kit-a")
        self.assertEqual(kept.rows(), {})
        kept.put(edit("b"), "2" * 16, "by-name")
        kept.put(edit("a"), "1" * 16, "proof")
        self.assertTrue(kept.stands(edit("a"), "1" * 16))
        self.assertFalse(kept.stands(edit("a"), "2" * 16))
        names = [line.split()[1] for line in kept.path.read_text().splitlines()[1:]]
        self.assertEqual(names, ["low/wrong-bodies/a", "low/wrong-bodies/b"])
        kept.drop(edit("a"))
        self.assertEqual(kept.rows(), {"low/wrong-bodies/b": ("2" * 16, "by-name")})

    def test_what_another_kit_refused_stays(self):
        one, other = (record.Record(self.root / "refused.txt", kit) for kit in ("kit-a", "kit-b"))
        one.put(edit("a"), "1" * 16, "proof")
        self.assertEqual(other.rows(), {})
        other.put(edit("a"), "2" * 16, "by-name")
        self.assertEqual(one.rows(), {"low/wrong-bodies/a": ("1" * 16, "proof")})
        one.drop(edit("a"))
        self.assertEqual(other.rows(), {"low/wrong-bodies/a": ("2" * 16, "by-name")})
        one.forget("low/wrong-bodies/a")
        self.assertEqual(one.names(), set())

    def test_what_is_no_row_is_left_out(self):
        self.assertEqual(
            record.read("# a b c\nhalf a row\nsum name proof kit\n"), {("name", "kit"): ("sum", "proof")}
        )


class Choice(unittest.TestCase):
    def setUp(self):
        self.edits = [edit(f"e{n}") for n in range(40)]
        self.sums = {it: "now" for it in self.edits}
        self.rows = {str(it): ("now", "proof") for it in self.edits[2:]}
        self.rows[str(self.edits[0])] = "before", "proof"

    def chosen(self, mode, commits=0, others=None):
        return choice.chosen(self.edits, self.sums, choice.Recorded(self.rows, others or {}), mode, commits)

    def test_what_is_not_recorded_is_tried(self):
        for mode in (choice.Mode.PART, choice.Mode.CHANGED):
            self.assertEqual(self.chosen(mode)[0], self.edits[:2])
        self.assertEqual(self.chosen(choice.Mode.CHANGED)[1], [])
        self.assertEqual(self.chosen(choice.Mode.ALL), (self.edits, []))

    def test_what_another_kit_refused_is_tried_first_of_those_that_may_wait(self):
        one, other, *_ = self.edits
        for sum, is_must in (("now", False), (choice.ANY, False), ("before", True)):
            must, again = self.chosen(choice.Mode.PART, others={str(one): [("older", "proof"), (sum, "proof")]})
            self.assertEqual(must, [one, other] if is_must else [other], sum)
            self.assertEqual(again[:1] == [one], not is_must, sum)
            self.assertEqual(self.chosen(choice.Mode.CHANGED, others={str(one): [(sum, "proof")]})[0], [one, other])

    def test_what_was_refused_by_a_sum_that_is_not_known_may_wait(self):
        one, other, *_ = self.edits
        self.rows[str(one)] = choice.ANY, "proof"
        must, again = self.chosen(choice.Mode.PART)
        self.assertEqual((must, again[:1]), ([other], [one]))
        self.assertEqual(self.chosen(choice.Mode.CHANGED)[0], [one, other])

    def test_each_has_its_turn_once(self):
        made = choice.shares(self.edits, choice.SHARE)
        turns = [self.chosen(choice.Mode.PART, commits)[1] for commits in range(7, 7 + len(made))]
        self.assertEqual(sorted(it for turn in turns for it in turn), sorted(self.edits[2:]))

    def test_a_share_is_of_one_crate(self):
        edits = self.edits + [edit(f"e{n}", "high") for n in range(25)] + [edit("e", "top")]
        made = choice.shares(edits, 24)
        self.assertEqual(sorted(it for share in made for it in share), sorted(edits))
        self.assertEqual(
            [(share[0].crate, len({it.crate for it in share}), len(share)) for share in made],
            [("high", 1, 13), ("high", 1, 12), ("low", 1, 20), ("low", 1, 20), ("top", 1, 1)],
        )
        self.assertEqual(choice.chosen([], {}, choice.Recorded({}), choice.Mode.PART, 3), ([], []))

    def test_crates_begin_elsewhere(self):
        self.assertEqual(choice.crates_in_turn(["c", "a", "b"], 4), ["b", "c", "a"])
        self.assertEqual(choice.crates_in_turn([], 4), [])


class Batches(unittest.TestCase):
    FILE = "src/a/b.rt"
    TEXT = (
        "fn one() {\n    1\n}\n\n"
        "impl A {\n    pub fn two(&self) -> u8\n        ensures { x }\n    {\n        2\n    }\n\n"
        "    pub(crate) fn one() {\n        3\n    }\n}\n"
    )

    def function(self, old, new):
        return batches.function_of({self.FILE: self.TEXT}, {self.FILE: self.TEXT.replace(old, new)})

    def test_where_a_function_stands(self):
        found = [(it.name, it.first, it.last, it.is_only_one) for it in batches.functions_in(self.FILE, self.TEXT)]
        self.assertEqual(found, [("one", 1, 3, False), ("two", 6, 10, True), ("one", 12, 14, False)])

    def test_the_path_of_a_function(self):
        text = "/// One.\n#[must_use]\nfn one() {\n    1\n}\n\nimpl B for A {\n    fn two() {\n        2\n    }\n}\n"
        one, two = batches.functions_in("src/lib.rt", text)
        self.assertEqual((one.first, one.path(), one.folder()), (1, "one", "proofs/"))
        self.assertIsNone(two.path())  # a trait's, at the root
        [_, two] = batches.functions_in("src/a/mod.rt", text)
        self.assertEqual((two.path(), two.folder()), ("a", "proofs/a/"))
        own = self.function("        2", "        4")
        self.assertEqual((own.path(), own.folder()), ("A::two", "proofs/a/b/"))
        self.assertTrue(own.is_proved_by("proofs/a/A/two/Answers.antt"))  # the type is of another module
        self.assertFalse(own.is_proved_by("proofs/a/A/one/Answers.antt"))

    def test_the_function_of_an_edit(self):
        self.assertEqual(self.function("        2", "        4").name, "two")
        self.assertEqual(self.function("        3", "        4").first, 12)
        self.assertIsNone(self.function("impl A", "impl B"))
        self.assertIsNone(self.function("    1\n", ""))
        self.assertIsNone(
            self.function(
                "    1\n}\n\nimpl A {\n    pub fn two(&self)", "    2\n}\n\nimpl A {\n    pub fn two(&mut self)"
            )
        )
        self.assertIsNone(batches.function_of({"src/a.rt": "x", "src/b.rt": "x"}, {"src/a.rt": "y", "src/b.rt": "y"}))

    def test_groups(self):
        one, two, three = (
            self.function("    1", "    4"),
            self.function("        2", "        4"),
            self.function("        3", "        4"),
        )
        a, b, c, d, e = (edit(it) for it in "abcde")
        self.assertEqual(
            batches.grouped([a, b, c, d, e], {a: one, b: one, c: None, d: two, e: three}), [[a, d, e], [b], [c]]
        )
        many = [batches.Function(self.FILE, "f", number, number, True) for number in range(batches.SIZE + 1)]
        self.assertEqual([len(it) for it in batches.grouped(many, {it: it for it in many})], [batches.SIZE, 1])

    def test_one_text_of_several(self):
        afters = [
            {self.FILE: self.TEXT.replace("    1\n", "    7\n")},
            {self.FILE: self.TEXT.replace("        2", "        8")},
        ]
        wanted = self.TEXT.replace("    1\n", "    7\n").replace("        2", "        8")
        self.assertEqual(batches.merged({self.FILE: self.TEXT}, afters), {self.FILE: wanted})

    def test_what_is_told_of_a_function(self):
        two, one = self.function("        2", "        4"), self.function("        3", "        4")
        notes = (
            "note: src/a/b.rt:{}:5: it is not proved that what the function ensures holds when it returns (`returns`)"
        )
        self.assertTrue(batches.is_refused(two, ["logic=not-proved", notes.format(6)]))
        self.assertTrue(batches.is_refused(two, [notes.format(10)]))
        self.assertFalse(batches.is_refused(two, [notes.format(11), notes.format(5), "so far: " + notes.format(6)]))
        self.assertFalse(
            batches.is_refused(two, [notes.format(6).replace("b.rt", "c.rt"), "note: src/a/b.rt:6:5: large solution"])
        )
        proof = "./proofs/a/b/{}/Answers.antt:9:5: error: `returns`: {}"
        self.assertTrue(batches.is_refused(two, [proof.format("A/two", "the two types differ")]))
        self.assertFalse(
            batches.is_refused(
                two, [proof.format("A/one", "the two types differ"), proof.format("A/two", "it has no field `x`")]
            )
        )
        self.assertFalse(batches.is_refused(one, [proof.format("A/one", "the two types differ")]))


class Judging(unittest.TestCase):
    REFUSED = "must-fail a/b.edit: refused, as it must be"
    # What a kit says of an edit: by a name, or whether it is refused; how it was refused, and whether it is tried again.
    ROWS = (
        ("REFUSED", True, f"{REFUSED}: src/a.rt:1:1", "proof", False),
        ("REFUSED", True, f"{REFUSED} ({kit.BY_NAME}, so ..)", "by-name", False),
        ("AT_LIMIT", None, f"{REFUSED} (only by a limit of the prover)", "limit", False),
        ("MISSED", False, "must-fail a/b.edit: NOT REFUSED: the crate is still proved with this edit", None, True),
        ("UNSURE", False, "must-fail a/b.edit: BAD EDIT: the kept work of a library could not be used", None, True),
        ("BAD", False, "must-fail a/b.edit: BAD EDIT: it did not reach the prover", None, False),
    )

    def test_how(self):
        for outcome, is_refused, text, how, is_again in self.ROWS:
            given = getattr(kit.loaded(), outcome) if kit.has_names() else is_refused
            if given is not None:
                self.assertEqual((kit.how_refused(given, text), kit.is_unsure(given, text)), (how, is_again), outcome)


class Lanes(unittest.TestCase):
    def test_memory(self):
        def job(gigabytes):
            return lanes.Job(list, gigabytes * GB)

        self.assertTrue(lanes.fits(job(50), [], 10 * GB, 1 * GB))
        self.assertTrue(lanes.fits(job(4), [job(4)], 10 * GB, 5 * GB))
        self.assertFalse(lanes.fits(job(4), [job(4), job(1)], 10 * GB, 5 * GB))
        self.assertFalse(lanes.fits(job(4), [job(1)], 10 * GB, 4 * GB))

    def test_what_a_job_gives_is_run(self):
        done = []
        later = lanes.Job(lambda: done.append("later") or [], GB)
        first = lanes.Job(lambda: done.append("first") or [later], GB)
        self.assertEqual(lanes.in_lanes([first], 2, lambda: 10 * GB), [])
        self.assertEqual(done, ["first", "later"])

    def test_after_the_deadline_only_what_must(self):
        done = []
        must = lanes.Job(lambda: done.append("must") or [], GB)
        may = lanes.Job(lambda: done.append("may") or [], GB, may_wait=True)
        self.assertEqual(lanes.in_lanes([may, must], 2, lambda: 10 * GB, deadline=0), [may])
        self.assertEqual(done, ["must"])

    def test_after_the_last_moment_nothing(self):
        done = []
        must = lanes.Job(lambda: done.append("must") or [], GB)
        may = lanes.Job(lambda: done.append("may") or [], GB, may_wait=True)
        self.assertEqual(lanes.in_lanes([may, must], 2, lambda: 10 * GB, last=0), [may, must])
        self.assertEqual(done, [])


def edit_of(name):
    return Edit(CRATE, "wrong-bodies", name)


def small_copy(root, at):
    """A repository of one crate, with what the prover kept of it."""
    small = at / "small"
    for part in ("src", "specs", "proofs", "out"):
        if (root / "crates" / CRATE / part).is_dir():
            copied(root / "crates" / CRATE / part, small / "crates" / CRATE / part)
    (small / "crates.txt").write_text(f"{CRATE}:\n")
    (small / "tools").mkdir()
    folder = small / "crates" / CRATE / "wrong-bodies"
    folder.mkdir()
    for source, texts in EDITS.items():
        own = "\n".join(f"name: {name}\n{text}" for name, text in texts.items())
        (folder / f"{source}.edits").write_text(f"file: src/{source}.rt\n\n{own}")
    return small


def faults(told, record, sums):
    """What came otherwise than it should."""
    for name, wanted in WANTED.items():
        edit = edit_of(name)
        came = told.refused.get(edit) or told.failed.get(edit)
        if came != wanted and (wanted is None or wanted not in (came or "")):
            yield f"{name}: wanted {wanted}, and it is: {came}"
        is_recorded = record.stands(edit, sums[edit])
        if is_recorded != (wanted in ("proof", None)):
            yield f"{name}: {'is' if is_recorded else 'is not'} in the record"


def run(root, at):
    load = unittest.defaultTestLoader.loadTestsFromModule
    tests = unittest.TestSuite([load(sums_test), load(sys.modules[__name__])])
    units = unittest.TextTestRunner(stream=sys.stderr).run(tests)
    small = small_copy(root, at)
    plan = Run(Wish(small), at / "plan")
    plan.plan()
    record = Record(small / "tools/refused.txt", kit.name())
    record.put(edit_of("stands_by_the_record"), plan.sums[edit_of("stands_by_the_record")], "proof")
    record.put(edit_of("harmless_but_recorded"), plan.sums[edit_of("harmless_but_recorded")], "proof")
    record.put(edit_of("recorded_wrongly"), "0" * 16, "proof")
    record.put(edit_of("changes_nothing"), "0" * 16, "proof")
    told = Run(Wish(small, Mode.PART, share=4), at / "run").whole()
    found = list(faults(told, record, plan.sums))
    shutil.rmtree(small)
    print("\n".join([*told.lines()][:-1] + [f"tools/wrong_bodies --self-test: {it}" for it in found]))
    failed = len(found) + len(units.failures) + len(units.errors)
    print(f"{units.testsRun + len(WANTED) - failed} passed, {failed} failed")
    return 1 if failed else 0
