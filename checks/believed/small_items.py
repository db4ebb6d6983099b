"""Tries the reader of `.rt` files on a small one: where functions and clauses end, and what items are."""

import unittest

from items import first_sentence, functions, functions_named, read_module

STEPS = """\
//! Steps of a board. And more.
ghost use Rattle.low.specs.Steps.{Step, AreSmall as IsSmall};

/// How far it goes.
pub const LIMIT: u32 = 0x1_0;

const TWICE: u32 = LIMIT * 2;

pub trait Goes {
    ghost use Rattle.low.specs.Steps.{all_steps};

    /// Which steps: (a to z.
    ghost steps: { Self → List Step };

    fn go(&mut self, by: [u8; 2])
        ensures* on { self.new ≡ record self.old { at = by.now; } };
}

impl Goes for Board {
    fn go(&mut self, by: [u8; 2]) {
        let at = by[0];
        self.at = at;
    }

    /// Says where it is.
    #[inline]
    pub(crate) fn told(&self, mark: char) -> char
        requires sound { IsSound "}" }
        // ensures { nothing }
        ensures { result ≡ told
            self.now }
        // as always
        ensures same { self.new ≡ self.old }
    {
        if mark == '{' { near() } else { mark }
    }
}

const fn near() -> char {
    'n'
}

pub fn steps_are_small()
    ensures small { AreSmall }
{}

pub fn some_are_small()
    requires { LIMIT ≡ 16 }
    ensures { AreSmall }
{}

// pub fn none_is_small()
pub fn how_small(step: u8) -> u8
    ensures { result ≡ step.now }
{
    step
}
"""


class Reading(unittest.TestCase):
    """What stands in a file."""

    def only(self, name):
        """The one function of a name."""
        found, = functions_named(STEPS, name)
        return found

    def test_functions(self):
        self.assertEqual([found.name for found in functions(STEPS)],
                         ["go", "go", "told", "near", "steps_are_small", "some_are_small", "how_small"])
        self.assertEqual([found.name for found in functions(STEPS) if found.is_public],
                         ["steps_are_small", "some_are_small", "how_small"])

    def test_laws(self):
        self.assertEqual([found.name for found in functions(STEPS) if found.is_law], ["steps_are_small"])

    def test_texts(self):
        told = self.only("told")
        self.assertEqual(told.signature, "pub(crate) fn told(&self, mark: char) -> char")
        self.assertTrue(told.text.endswith("\n    // as always\n    ensures same { self.new ≡ self.old }"))
        self.assertEqual(told.comment, "/// Says where it is.")
        self.assertEqual(self.only("near").text, "const fn near() -> char")

    def test_clauses(self):
        told = self.only("told")
        self.assertEqual([(clause.kind, clause.name) for clause in told.clauses],
                         [("requires", "sound"), ("ensures", ""), ("ensures", "same")])
        self.assertEqual([clause.written for clause in told.premises], ['requires sound { IsSound "}" }'])
        self.assertEqual(told.promises[0].said.split(), ["result", "≡", "told", "self.now"])
        self.assertEqual([found.clauses for found in functions_named(STEPS, "Board::go")][1], [])

    def test_members_of_traits(self):
        found = [(clause.kind, clause.name, clause.said.strip())
                 for clause in read_module("low", "lib.rt", STEPS).types["Goes"].clauses()]
        self.assertEqual(found, [("ghost", "steps", "Self → List Step"),
                                 ("ensures*", "on", "self.new ≡ record self.old { at = by.now; }")])

    def test_constants(self):
        types = read_module("low", "lib.rt", STEPS).types
        self.assertEqual({name: of.number() for name, of in types.items()}, {"LIMIT": 16, "TWICE": None, "Goes": None})
        self.assertEqual(types["LIMIT"].comment, "/// How far it goes.")

    def test_what_is_used(self):
        self.assertEqual(read_module("low", "lib.rt", STEPS).ghosts["IsSmall"],
                         ("Rattle.low.specs.Steps", "AreSmall"))

    def test_heads(self):
        self.assertEqual([first_sentence(STEPS), first_sentence("use low;\n")], ["Steps of a board.", ""])
