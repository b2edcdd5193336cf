"""A repository of two crates for the tests of tools/wrong_bodies, the second above the first."""
import tempfile
import unittest
from pathlib import Path

from .edits import Edit

LOW = """\
//! What is below.
#![tactic(auto)]

pub use shapes::{Edge, Shape};

pub const LONGEST: u8 = 9;

pub fn area(shape: &Shape, scale: u8) -> u8
    ensures { result ≡ doubled (times shape.now scale) }
{
    helper(shape)
}

fn helper(shape: &Shape) -> u8
    ensures { result ≡ one }
{
    1
}

pub const fn limit() -> u8 {
    LONGEST
}

pub fn doubled(n: u8) -> u8
    ensures { result ≡ two }
{
    2
}

pub fn halved(n: u8) -> u8
    ensures { result ≡ half }
{
    2
}

pub fn turned(n: u8) -> u8
    ensures { result ≡ round }
{
    2
}
"""
SHAPES = """\
ghost use Rattle.low.specs.Lib.{times};
ghost use Rattle.low.specs.Sides.{sides, ◌+◌};
ghost use Rattle.low.specs.Kept.{seen, kept};

/// A shape.
pub struct Shape {
    edge: Edge,
}

pub struct Edge {
    length: u8,
}

pub struct Apart {
    n: u8,
}

impl Shape {
    /// Its edge.
    pub fn edge(&self) -> &Edge
        ensures { result.now ≡ a }
    {
        &self.edge
    }

    pub fn sides(&self) -> u8
        ensures { result ≡ sides + one }
    {
        4
    }
}

impl Model for Apart {
    ghost Value = { Nat };

    ghost view = { λ a. a.n };
}

impl Model for Shape {
    ghost use Rattle.low.specs.Lib.{model, inner};

    ghost Value = { model Nat };

    ghost view = { λ s. inner (seen s.edge) };

    ghost invariant = { λ s. s.edge ≡ kept };
}

"""
KEPT = """\
-- what a shape keeps
use Rattle.low.specs.Deep.{deepest as deep, unused}

pub seen : Nat → Nat
seen zero = zero
seen (suc n) = n

pub kept : Nat
kept = two

pub sized : Nat
sized = twelfth
"""
SIZED = """\
use Rattle.low.specs.Deep.{deepest as deep, unused}
use Rattle.low.specs.Deep as all
use Rattle.low.specs.Steps.{◌>>=◌}
infixl 10 ◌⊕◌
pub ◌⊕◌ : Nat → Nat → Nat
m ⊕ n = m

abbrev pub sized : Nat → Nat
sized zero = deep
sized (suc n) = all.through n

pub apart : Nat → Nat
unfolding sized
apart n = third
"""
DEEP = """\
pub deepest : Nat
deepest = corner four

pub data Side : Type 0 where
  corner : Nat → Side

abbrev mutual
  pub through : Nat → Nat
  through n = odd n

  pub odd : Nat → Nat
  odd n = fifth

pub apart : Nat
apart = sixth

pub record Aside : Type 0 where
  pub seventh : Nat
"""
LEMMAS = """\
use Rattle.low.specs.contracts.lib.halved as it
pub by_half : it
by_half = eighth

pub unnamed : Nat
unnamed = ninth

pub inside_of : Nat
inside_of = Rattle.low.specs.declared.shapes.Shape.TheInside
"""
OWN_LEMMAS = """\
use Rattle.high.specs.Own.{g}

pub lemma : g
lemma = two

other : g
other = six
"""
HIGH = """\
#![tactic(auto)]
ghost use Rattle.low.specs.Sides.{◌≡◌};
ghost use Rattle.low.specs.Sized.{sized, apart};

#[tactic(auto)]
mod apiece;

use low::{Shape, area, limit};
use low::made::{turned as remade};

fn size(shape: &Shape) -> u8
    ensures { result ≡ sized (area_of shape.now) }
{
    let _edge = shape.edge();
    area(shape, limit()) + own(shape)
}

#[tactic(auto, using(low::proofs::Lemmas::by_half))]
fn own(shape: &Shape) -> u8
    ensures { result ≡ zero }
{
    0
}

fn other() -> u8
    ensures { result ≡ three }
{
    3
}

struct Held {
    n: u8,
}

impl Held {
    #[cycle(turns)]
    fn turn(&self) -> u8
        ensures { result ≡ turned (record {
          n = five;
        }) }
        ensures { result ≡ six }
    {
        each(
            |n: u8| -> u8
                ensures { result ≡ n }
            { n },
        );
        self.last()
    }

    fn last(&self) -> u8
        ensures { result ≡ lasting (record {
          n = seven;
        }) }
        ensures { result ≡ eight }
    {
        made_by_rule!(self)
    }
}

each_time!(by_time);

fn by_time() -> u8
    ensures { result ≡ timed }
{
    10
}

macro_rules! made_by_rule {
    ($it:expr) => {
        by_rule($it)
    };
}

fn by_rule() -> u8
    ensures { result ≡ nine }
{
    9
}

fn bare() -> u8 {
    4
}
"""
HIGH_EDITS = """\
file: src/lib.rt

name: of_size
old: area(shape, limit())
new: area(shape, 1)

# what a rule makes
name: of_turn
old: self.last()
new: remade(made_by_rule!(1))

name: of_bare
old:     4
new:     5
"""
FILES = {
    "crates.txt": "# the crates\nlow: json\nhigh: low\n",
    "crates/low/src/lib.rt": LOW,
    "crates/low/src/shapes.rt": SHAPES,
    "crates/low/specs/Lib.antt": "pub mod Kept\npub mod Sized\npub mod Deep\n",
    "crates/low/specs/Kept.antt": KEPT,
    "crates/low/specs/Sized.antt": SIZED,
    "crates/low/specs/Deep.antt": DEEP,
    "crates/low/specs/Odd.antt": "what is this\n",
    "crates/low/proofs/Lemmas.antt": LEMMAS,
    "crates/low/proofs/area/Answers.antt": "answer = f\n",
    "crates/high/src/lib.rt": HIGH,
    "crates/high/specs/Own.antt": "-- why\npub g : Nat\ng = one\n",
    "crates/high/proofs/Lemmas.antt": OWN_LEMMAS,
    "crates/high/proofs/size/Answers.antt": "use Rattle.high.proofs.Lemmas.{lemma}\nanswer = lemma\n",
    "crates/high/proofs/size/Hidden/Sent.antt": "sent = one\n",
    "crates/high/proofs/other/Answers.antt": "answer = h\n",
    "crates/high/proofs/Held/+turns/Answers.antt": "answer = h\n",
    "crates/high/proofs/Held/+others/Answers.antt": "answer = h\n",
    "crates/high/wrong-bodies/lib.edits": HIGH_EDITS,
    "crates/low/wrong-bodies/lib.edits": """\
file: src/lib.rt

name: of_area
old: helper(shape)
new: helper(shape) + 1
""",
}


def edit(name, crate="low"):
    return Edit(crate, "wrong-bodies", name)


class Room(unittest.TestCase):
    """A repository of two crates, the second above the first."""

    def setUp(self):
        folder = tempfile.TemporaryDirectory()
        self.addCleanup(folder.cleanup)
        self.root = Path(folder.name)
        for path, text in FILES.items():
            self.write(path, text)

    def write(self, path, text):
        path = self.root / path
        path.parent.mkdir(parents=True, exist_ok=True)
        path.write_text(text)
