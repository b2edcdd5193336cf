"""Looks whether the sum of a wrong body changes with all that its outcome depends on, and with nothing else."""
from . import definitions, reach, sums
from . import seen as seen_from
from .edits import FOLDERS, edits_below
from .sums_room import DEEP, FILES, SHAPES, Room

# What is changed, where, from what to what, and whose sum changes with it: of the body of `size`, of `turn` and of
# `bare`, which has no contract, above, and of `area` below.
CHANGES = (
    ("the body", "high/src/lib.rt", "+ own", "- own", "size bare"),
    ("its contract", "high/src/lib.rt", "sized (", "sized (suc ", "size bare"),
    ("a comment", "high/src/lib.rt", "fn size", "// why\n\nfn size", ""),
    ("its line breaks", "high/src/lib.rt", "≡ sized", "≡\n        sized", ""),
    ("what is inlined", "high/src/lib.rt", "fn size", "#[inline(always)]\nfn size", ""),
    ("the body of a function that it calls", "high/src/lib.rt", "    0\n", "    00\n", "bare"),
    ("the contract of a function that it calls", "high/src/lib.rt", "zero", "one", "size bare"),
    ("the contract of a function that it doesn't call", "high/src/lib.rt", "three", "four", "bare"),
    ("the answer that proves it", "high/proofs/size/Answers.antt", "= lemma", "= f", "size bare"),
    ("what stands beside that answer", "high/proofs/size/Hidden/Sent.antt", "one", "two", "size bare"),
    ("the answer that proves another", "high/proofs/other/Answers.antt", "h", "f", "bare"),
    ("a lemma of its crate that it names", "high/proofs/Lemmas.antt", "two", "three", "size bare"),
    ("a lemma of its crate that it doesn't name", "high/proofs/Lemmas.antt", "six", "seven", "bare"),
    ("a definition that such a lemma names", "high/specs/Own.antt", "one", "two", "size bare"),
    ("what a word of such a lemma means", "high/proofs/Lemmas.antt", "specs.Own", "specs.More", "size bare"),
    ("the edit", "high/wrong-bodies/lib.edits", "shape, 1", "shape, 2", "size"),
    ("another edit", "high/wrong-bodies/lib.edits", "5", "6", "bare"),
    ("a comment beside it", "high/wrong-bodies/lib.edits", "a rule", "rules", ""),
    ("a definition below that it names", "low/specs/Sized.antt", "sized zero = deep", "sized zero = n", "size bare"),
    ("how such a definition is seen", "low/specs/Sized.antt", "abbrev pub sized", "pub sized", "size bare"),
    ("another equation of it", "low/specs/Sized.antt", "all.through n", "n", "size bare"),
    ("what a word of it means", "low/specs/Sized.antt", "{deepest as", "{apart as", "size bare"),
    ("what a `do` means there", "low/specs/Sized.antt", "specs.Steps", "specs.More", "size turn bare area"),
    ("what a word beside it means", "low/specs/Sized.antt", ", unused}", ", more}", ""),
    ("a definition that it names by another name", "low/specs/Deep.antt", "four", "five", "size bare"),
    ("one that it names by its module", "low/specs/Deep.antt", "  through n = odd", "  through n = even", "size bare"),
    ("one that is made with such a one", "low/specs/Deep.antt", "fifth", "sixth", "size bare"),
    ("a type of which a constructor is named", "low/specs/Deep.antt", "Nat → Side", "Bool → Side", "size bare"),
    ("a definition beside it", "low/specs/Sized.antt", "third", "fourth", "bare"),
    ("one of its name in another module", "low/specs/Kept.antt", "twelfth", "third", ""),
    ("a type that nothing names", "low/specs/Deep.antt", "seventh : Nat", "seventh : Bool", ""),
    ("a new definition", "low/specs/Deep.antt", "pub record", "pub novel : Nat\nnovel = one\n\npub record", ""),
    ("an operator below", "low/specs/Sized.antt", "⊕ n = m", "⊕ n = n", "size turn bare area"),
    ("how an operator binds", "low/specs/Sized.antt", "infixl 10", "infixl 20", "size turn bare area"),
    ("what isn't laid out as expected", "low/specs/Odd.antt", "what", "that", "size turn bare area"),
    (
        "what passes names on",
        "low/specs/More.antt",
        "",
        "pub use Rattle.low.specs.Deep.{apart}\n",
        "size turn bare area",
    ),
    ("a comment of a definition", "low/specs/Kept.antt", "what", "why", ""),
    ("a lemma below that a tactic is given", "low/proofs/Lemmas.antt", "eighth", "ninth", "size bare"),
    ("a lemma below that nothing names", "low/proofs/Lemmas.antt", "ninth", "tenth", ""),
    ("the answer of a function below", "low/proofs/area/Answers.antt", "f", "g", "area"),
    ("the contract of a function below that it calls", "low/src/lib.rt", "doubled (", "suc (", "size bare area"),
    ("the parameters of such a function", "low/src/lib.rt", "scale: u8", "scale: u16", "size bare area"),
    ("the body of such a function", "low/src/lib.rt", "    helper(", "    1 + helper(", "area"),
    ("the contract of a private function below", "low/src/lib.rt", "≡ one", "≡ two", "area"),
    ("the contract of a function below that contracts name", "low/src/lib.rt", "≡ two", "≡ one", ""),
    ("the body of a constant function below", "low/src/lib.rt", "    LONGEST", "    8", "size bare"),
    ("a constant that it names", "low/src/lib.rt", "= 9", "= 8", "size bare"),
    ("a private field of a type with a model", "low/src/shapes.rt", "edge: Edge,", "edge: Edge, n: u8,", "area"),
    ("a public field of such a type", "low/src/shapes.rt", "    edge: Edge,", "    pub edge: Edge,", "size bare area"),
    (
        "how such a type is dropped",
        "low/src/shapes.rt",
        "pub struct Shape",
        "#[derive(Drop)]\npub struct Shape",
        "size bare area",
    ),
    ("the view of such a type", "low/src/shapes.rt", "inner (seen", "inner (kept", "area"),
    ("what a word of such a view means", "low/src/shapes.rt", "Lib.{model, inner}", "Lib.{model}", "area"),
    ("what a word of such a view means for its file", "low/src/shapes.rt", "Kept.{seen", "More.{seen", "area"),
    ("a definition of such a view", "low/specs/Kept.antt", "(suc n) = n", "(suc n) = zero", "area"),
    ("the invariant of such a type", "low/src/shapes.rt", "≡ kept", "≡ seen", "area"),
    ("a definition of such an invariant", "low/specs/Kept.antt", "= two", "= three", "area"),
    ("a type that this one names", "low/src/shapes.rt", "length: u8", "length: u16", "size bare area"),
    ("a type that nothing names", "low/src/shapes.rt", "n: u8", "n: u16", ""),
    ("a method that it calls", "low/src/shapes.rt", "≡ a }", "≡ b }", "size bare"),
    ("the body of such a method", "low/src/shapes.rt", "&self.edge\n", "&self.other\n", ""),
    ("a method that it doesn't call", "low/src/shapes.rt", "≡ sides +", "≡ one +", ""),
    ("the value of a type that is named", "low/src/shapes.rt", "model Nat", "model Bool", "size bare area"),
    (
        "what a word of such a value means",
        "low/src/shapes.rt",
        "Lib.{model, inner}",
        "More.{model, inner}",
        "size bare area",
    ),
    ("what a word of nothing that is named means", "low/src/shapes.rt", "Lib.{times}", "More.{times}", ""),
    ("what a sign of nothing that is named means", "low/src/shapes.rt", "{sides, ◌+◌}", "{sides, ◌*◌}", ""),
    ("what an import is beside", "low/src/lib.rt", "{Edge, Shape}", "{Apart, Edge, Shape}", ""),
    ("a file of nothing that is named", "low/src/more.rt", "", "pub fn more() {}\n", ""),
    ("the type of a method", "high/src/lib.rt", "    n: u8,\n", "    n: u16,\n", "turn bare"),
    ("what a method calls behind a closure", "high/src/lib.rt", "lasting (", "six (", "turn bare"),
    ("the end of a contract behind a line with a brace", "high/src/lib.rt", "eight", "ten", "turn bare"),
    ("what a macro calls", "high/src/lib.rt", "nine", "ten", "turn bare"),
    ("what a word of the edit means", "high/src/lib.rt", "made::{turned", "made::{doubled", "turn bare"),
    ("what such a word is renamed from", "low/src/lib.rt", "round", "flat", "turn bare"),
    ("what a sign that is named means", "high/src/lib.rt", "Sides.{◌≡◌}", "More.{◌≡◌}", "size turn bare"),
    ("what is called beside the items", "high/src/lib.rt", "timed", "untimed", "size turn bare"),
    ("the contract of a function that a lemma names", "low/src/lib.rt", "≡ half", "≡ all", "size bare"),
    ("the answers of its cycle", "high/proofs/Held/+turns/Answers.antt", "h", "f", "turn bare"),
    ("the answers of another cycle", "high/proofs/Held/+others/Answers.antt", "h", "f", "bare"),
    ("an attribute of its crate", "high/src/lib.rt", "#![tactic(auto)]", "#![tactic(none)]", "size turn bare"),
    ("an attribute of a module", "high/src/lib.rt", "#[tactic(auto)]", "#[tactic(none)]", "size turn bare"),
    ("an attribute of a crate below", "low/src/lib.rt", "#![tactic(auto)]", "#![tactic(none)]", "area"),
    ("what a crate below uses", "crates.txt", "low: json", "low: json serde", "size turn bare area"),
    ("a comment among the crates", "crates.txt", "# the crates", "# all", ""),
)


class Sums(Room):
    def sums(self):
        made, named = sums.Sums(self.root), {it.name: it for it in edits_below(self.root, FOLDERS)}
        return {name: made.of(named[f"of_{name}"]) for name in ("size", "turn", "bare", "area")}

    def test_what_changes_a_sum(self):
        before = self.sums()
        for what, place, old, new, wanted in CHANGES:
            path = place if place in FILES else f"crates/{place}"
            text = FILES.get(path, "")
            self.assertEqual(text.count(old) if old else 1, 1, what)
            self.write(path, text.replace(old, new) if old else new)
            after = self.sums()
            self.assertEqual(" ".join(it for it in before if after[it] != before[it]), wanted, what)
            self.write(path, text)

    def test_what_a_source_states(self):
        for source, stated in (
            ("fn f() {\n    g();\n}\nstruct S {\n    a: u8,\n}", "fn f() {\n}\nstruct S {\n    a: u8,\n}"),
            (
                "trait T {\n    fn f(&self) -> u8\n        ensures { a };\n    fn g();\n}",
                "trait T {\n    fn f(&self) -> u8\n        ensures { a };\n    fn g();\n}",
            ),
            (
                "    fn f()\n        ensures { λ n.\n            n }\n    {\n        loop {\n        }\n    }\n    b",
                "    fn f()\n        ensures { λ n.\n            n }\n    {\n    }\n    b",
            ),
            ("fn f() {}\nfn g() {\n    h();", "fn f() {}\nfn g() {\n    h();"),
            (
                "fn f()\n    ensures { r (record {\n      a = b;\n    }) }\n    ensures { c }\n{\n    h();\n}",
                "fn f()\n    ensures { r (record {\n      a = b;\n    }) }\n    ensures { c }\n{\n}",
            ),
            (
                "    fn f()\n        ensures { a };\n\n    fn g() {\n        h();\n    }",
                "    fn f()\n        ensures { a };\n\n    fn g() {\n    }",
            ),
            (
                "fn f()\n    ensures { a }\n{}\nstruct S {\n    a: u8,\n}",
                "fn f()\n    ensures { a }\n{}\nstruct S {\n    a: u8,\n}",
            ),
        ):
            self.assertEqual(sums.stated(source), stated)

    def test_a_comment_at_the_end_of_a_line_counts(self):
        self.assertEqual(sums.said("a // b\n  // c\n\nd\n", ".rt"), "a // b\nd ")
        self.assertEqual(sums.said("    #[inline(always)]\n    #[tactic(auto)]\n", ".rt"), "#[tactic(auto)] ")

    def test_imports_of_one_module_are_joined(self):
        self.assertEqual(
            sums.said("ghost use a.b.{c};\nghost use a.b.{d};\nghost use a.e.{f};\n", ".rt"),
            "ghost use a.b.{c, d}; ghost use a.e.{f}; ",
        )

    def test_the_parts_of_a_source(self):
        self.assertEqual(
            [(it.kind, it.name, it.owner) for it in reach.units_of("low/src/shapes.rt", SHAPES)],
            [
                ("import", "times", None),
                ("import", "sides", None),
                ("import", "◌+◌", None),
                ("import", "seen", None),
                ("import", "kept", None),
                ("type", "Shape", None),
                ("type", "Edge", None),
                ("type", "Apart", None),
                ("type", "Shape", None),
                ("function", "edge", "Shape"),
                ("function", "sides", "Shape"),
                ("type", "Apart", None),
                ("type", "Shape", None),
            ],
        )

    def test_the_parts_of_a_file_of_definitions(self):
        self.assertEqual(
            [
                (it.kind, it.owner, it.names)
                for it in definitions.definitions_of("low/specs/Deep.antt", sums.plain(DEEP, ".antt"))
            ],
            [
                ("definition", "Deep", ("deepest",)),
                ("definition", "Deep", ("Side", "corner")),
                ("definition", "Deep", ("through", "odd")),
                ("definition", "Deep", ("apart",)),
                ("definition", "Deep", ("Aside", "seventh")),
            ],
        )
        beside = definitions.definitions_of("low/proofs/size/Hidden/Sent.antt", "sent = one")
        self.assertEqual([(it.owner, it.names, it.text) for it in beside], [("Hidden", ("Sent",), "sent = one")])
        for line in ("x", "use Rattle.low.specs.Deep.*", "pub use Rattle.low.specs.Deep.{apart}", "a ⊕ b = c"):
            text = "pub f : Nat\n" + line
            self.assertEqual(
                [(it.names, it.text) for it in definitions.definitions_of("low/specs/A.antt", text)], [((), text)]
            )

    def test_what_is_named_below_a_module(self):
        for text, wanted in (
            ("use Rattle.low.specs.Deep.{a, b as c}", {"Deep.a", "Deep.b"}),
            ("use Rattle.low.specs.Deep as d", {"Deep.*"}),
            ("use Rattle.low.specs.Deep.*", {"Deep.*"}),
            ("using(low::proofs::Deep::a)", {"Deep.a"}),
            ("use Rattle.low.Deep.{a, Side.{b}}", {"Deep.a", "Deep.*", "Side.b"}),
        ):
            self.assertLessEqual(wanted, reach.words(text), text)
        self.assertNotIn("Deep.*", reach.words("use Rattle.low.specs.Deep.{a}"))

    def test_what_is_seen_from_above(self):
        shape = SHAPES[SHAPES.index("pub struct Shape") : SHAPES.index("pub struct Edge")]
        model = SHAPES[SHAPES.index("impl Model for Shape") :]
        for old, new, is_whole in (
            ("u8", "u8", False),
            ("pub struct", "#[derive(Drop)]\npub struct", False),
            ("pub struct", "#[derive(Clone, Drop)]\npub struct", True),
            ("Shape {", "Shape<T: Drop> {", False),
            ("Shape {", "Shape<'a> {", True),
            ("ghost view", "ghost inverse = { a };\n\n    ghost view", True),
            ("ghost view", "ghost also_owns = { a };\n\n    ghost view", True),
            ("ghost view", "ghost viewed", True),
            ("ghost Value", "ghost coded", True),
        ):
            units = reach.units_of("low/src/shapes.rt", (shape + model).replace(old, new))
            seen = "".join(it.text for it in seen_from.from_above(units) if it.kind != "inside")
            self.assertEqual("edge: Edge" in seen, is_whole, new)

    def test_what_reaches_the_inside_of_a_type(self):
        before = self.sums()
        at = "crates/high/proofs/size/Answers.antt"
        for name, is_reached in (
            ("Rattle.low.specs.declared.shapes.Shape.TheInside", True),
            ("Rattle.low.specs.declared.shapes.Edge.TheInside", False),
            ("shape.TheInside", True),
            ("Shape.the_send", True),
            ("Shape.the_row", True),
            ("Shape.the_row.coded", False),
            ("Shape.TheVariants", False),
        ):
            self.write(at, FILES[at] + f"answer = {name}\n")
            one = self.sums()
            self.write("crates/low/src/shapes.rt", SHAPES.replace("edge: Edge,", "edge: u8,"))
            self.assertEqual(self.sums()["size"] != one["size"], is_reached, name)
            self.write("crates/low/src/shapes.rt", SHAPES.replace("n: u8", "n: u16"))
            self.assertEqual(self.sums()["size"], one["size"], name)
            self.write("crates/low/src/shapes.rt", SHAPES)
        self.write(at, FILES[at])
        self.assertEqual(self.sums(), before)

    def test_what_reaches_a_private_type(self):
        at, answer = "crates/low/src/held.rt", "crates/high/proofs/size/Answers.antt"
        edge, named = SHAPES.replace("length: u8", "length: Held"), FILES[answer] + "use Rattle.low.specs.declared."
        for kind, shapes, answers, wanted in (
            ("pub(crate) enum", SHAPES, FILES[answer], ""),  # `high` has a type of this name.
            ("enum", SHAPES, FILES[answer], ""),
            ("pub enum", SHAPES, FILES[answer], "turn bare"),
            ("pub(crate) enum", edge, FILES[answer], "size bare area"),
            ("pub(crate) enum", SHAPES, named + "held.Held.{Held}\n", "size bare"),
            ("pub(crate) enum", SHAPES, named + "held.{Held}\n", "size bare"),
            ("pub(crate) enum", SHAPES, named + "held.Held.TheVariants as v\n", "size bare"),
        ):
            self.write("crates/low/src/shapes.rt", shapes)
            self.write(answer, answers)
            self.write(at, kind + " Held {\n    One,\n}\n")
            before = self.sums()
            self.write(at, kind + " Held {\n    Two,\n}\n")
            after = self.sums()
            self.assertEqual(" ".join(it for it in before if after[it] != before[it]), wanted, (kind, answers))

    def test_code_is_without_contracts(self):
        self.assertEqual(reach.code("f\n    ensures { a\n        b }\n{\n    c"), "f\n{\n    c")
        self.assertEqual(reach.code("f\n    ensures { a }\n{ b },\nc"), "f\n{ b },\nc")
        self.assertEqual(reach.code("f\n    ensures { a };\nfn g()"), "f\nfn g()")

    def test_the_last_function_of_an_impl_is_found(self):
        source = "impl S {\n    fn f(&self)\n        ensures { a }\n    {\n        g();\n    }\n}\n"
        self.assertEqual(sums.function_at("src/lib.rt", source, "g();").name, "f")
        self.assertIsNone(sums.function_at("src/lib.rt", source, "ensures { a }"))
        self.assertIsNone(sums.function_at("src/lib.rt", source.replace("g();", "g(); g();"), "g();"))

    def test_whose_impl_it_is(self):
        for header, wanted in (
            ("impl Shape {", ("Shape", False)),
            ("impl<K: Eq + Hash, V: Drop> Table<K, V> {", ("Table", False)),
            ("impl<'v, 'a> ObjectRef<'v, 'a> {", ("ObjectRef", False)),
            ("impl<T: Fn(u8) -> u8> From<Failed<T>> for ValueFault {", ("ValueFault", True)),
            ("impl fmt::Display for &'a crate::Fault {", ("Fault", True)),
        ):
            self.assertEqual(reach.type_of(header), wanted)
