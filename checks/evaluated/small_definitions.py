"""Tries the evaluator on small definitions: terms, patterns, what names mean, which cases are used, and the table."""

import unittest
from types import SimpleNamespace

import table
from answers import is_evaluated, steps_of
from closure import Names
from compiling import Compiler
from items import read_module
from sources import Sources, read_spec

LOW = """\
-- Shapes. They are this board's own.
use Rattle.std.specs.Prelude.{ℕ, zero, suc, Bool, List, [], ◌∷◌, ◌++◌, ◌+◌, ◌-◌, ◌*◌, ◌==◌, map, codes}
use Rattle.std.specs.Prelude.{Option, Some, None}
use Rattle.low.specs.declared.way.TheConstants.{FIRST}
use Rattle.low.specs.declared.way.Way.TheVariants.{Up, Down}

-- a shape
pub data Shape : Type 0 where
  Dot : Shape
  Line : (length : ℕ) → Shape
  Box : (width height : ℕ) → Shape

-- a place
pub record Place : Type 0 where
  pub at : ℕ
  pub shape : Shape

-- places
abbrev pub Places : Type 0
Places = List Place

-- one that lies before another
abbrev pub IsBefore : Place → Place → Type 0
IsBefore p q = p.at ≡ q.at

-- a size
abbrev pub size : Shape → ℕ
size Dot = 1
size (Line n) = n
size (Box w h) = w * h + 1

-- a sum by what stands first
abbrev pub total : List ℕ → ℕ
total [] = 0
total (5 ∷ rest) = 500 + total rest
total (x ∷ rest) = x + total rest

-- one less, by another way than the difference
abbrev pub before : ℕ → ℕ
before zero = 0
before (suc n) = n

-- a place that moves
abbrev pub moved : Place → ℕ → Place
moved p by = let next = p.at + by in record p { at = if next == FIRST then 0 else next - 1 }

-- of a way
abbrev pub steps : Way → ℕ
steps Up = 2
steps (Down by) = by

-- more to each
abbrev pub more : ℕ → List ℕ → List ℕ
more by xs = map (λ x. x + by) xs ++ map (times by) xs

-- one times another
abbrev pub times : ℕ → ℕ → ℕ
times x y = x * y

-- a text, and its place
abbrev pub told : ℕ × ℕ → Option (List ℕ)
told pair = if pair.0 == 2 then Some (codes "a\\n") else None
"""
HIGH = """\
use Rattle.low.specs.Shapes as shapes
use Rattle.low.specs.Shapes.{Shape, size as how_much}
use Rattle.std.specs.Prelude.{ℕ, ◌+◌}

-- of two
abbrev pub both : Shape → ℕ
both (shapes.Line n) = how_much (shapes.Box n 2)
both other = shapes.size other + 10
"""
CODE = """\
pub const FIRST: u32 = 0x1_0;

pub enum Way {
    Up,
    Down(u8),
}
"""


def small():
    """The compiler of the small definitions."""
    specs = {("low", "Shapes"): read_spec("low", "Shapes", LOW), ("high", "Both"): read_spec("high", "Both", HIGH)}
    return Compiler(Names(Sources(specs, {("low", "way.rt"): read_module("low", "way.rt", CODE)})))


class Evaluating(unittest.TestCase):
    """What functions of definitions answer."""

    def setUp(self):
        self.compiler = small()

    def value(self, name, *arguments, place=("low", "Shapes")):
        """The value of a definition with arguments."""
        return self.compiler.function(self.compiler.names.sources.specs[place].definitions[name])(*arguments)

    def test_forms(self):
        self.assertEqual([self.value("size", shape) for shape in (("Dot",), ("Line", 7), ("Box", 3, 4))], [1, 7, 13])

    def test_the_first_case_that_fits(self):
        self.assertEqual(self.value("total", [1, 5, 2]), 503)

    def test_numbers_by_their_forms(self):
        self.assertEqual([self.value("before", n) for n in (0, 5)], [0, 4])

    def test_records_and_constants(self):
        place = {"at": 3, "shape": ("Dot",)}
        self.assertEqual([self.value("moved", place, by)["at"] for by in (0, 13)], [2, 0])
        self.assertEqual((self.value("moved", place, 1)["shape"], place["at"]), (("Dot",), 3))
        self.assertEqual(self.value("moved", {**place, "at": 0}, 0)["at"], 0)

    def test_forms_of_code(self):
        self.assertEqual([self.value("steps", way) for way in (("Up",), ("Down", 9))], [2, 9])

    def test_functions_that_are_passed(self):
        self.assertEqual(self.value("more", 3, [1, 2]), [4, 5, 3, 6])

    def test_texts_and_pairs(self):
        self.assertEqual(self.value("told", (2, 0)), ("Some", [97, 10]))
        self.assertEqual(self.value("told", (0, 2)), ("None",))

    def test_names_of_other_files(self):
        self.assertEqual([self.value("both", shape, place=("high", "Both")) for shape in (("Line", 4), ("Dot",))],
                         [9, 11])

    def test_no_case_that_fits(self):
        with self.assertRaisesRegex(ValueError, "no case of low/Shapes/size fits"):
            self.value("size", ("Circle",))

    def test_cases_that_are_used(self):
        self.value("total", [1])
        self.assertEqual(self.compiler.used, {("low/Shapes", "total", 0), ("low/Shapes", "total", 2)})


class Table(unittest.TestCase):
    """What is said of definitions."""

    def setUp(self):
        self.found = read_spec("low", "Shapes", LOW).definitions

    def row(self, name, used=(), has=(), refuses=()):
        """The row of a definition."""
        return table.row_of(self.found[name], {("low/Shapes", name, number): [] for number in used},
                            lambda found: (has, refuses))

    def test_kinds(self):
        kinds = {name: table.kind_of(found) for name, found in self.found.items()}
        self.assertEqual([name for name, kind in kinds.items() if kind == table.NOUN], ["Shape", "Place", "Places"])
        self.assertEqual([name for name, kind in kinds.items() if kind == table.STATEMENT], ["IsBefore"])

    def test_functions(self):
        rows = [self.row("total", [0, 1, 2]), self.row("total", [1]), self.row("total")]
        self.assertEqual([row.is_whole for row in rows], [True, False, False])
        self.assertEqual([table.said_of(row) for row in rows[1:]], [" (1, 3 of 3)", ""])

    def test_statements(self):
        name = "IsBefore"
        rows = [self.row(name, has=["case"], refuses=["case"]), self.row(name, has=["case"]),
                self.row(name, refuses=["case"]), self.row(name)]
        self.assertEqual([row.is_whole for row in rows], [True, False, False, False])
        self.assertEqual([table.said_of(row) for row in rows[1:]], [" (refused by none)", " (had by none)", ""])

    def test_page(self):
        page = table.page([self.row("total", [1]), self.row("size", [0, 1, 2]), self.row("IsBefore"),
                           self.row("Shape")], 3, 1)
        for line in ("| Functions, each case of which an example uses | 1 |", "- `low/Shapes`: `total` (1, 3 of 3)",
                     "| Cases of functions, and those that an example uses | 6, 4 |", "- `low/Shapes`: `IsBefore`"):
            self.assertIn("\n%s\n" % line, page)


class Examples(unittest.TestCase):
    """Which examples are evaluated."""

    def test_steps(self):
        for text, steps in (("==\nend done steps 12 time 3\n", 12), ("printed\n", 900)):
            case = SimpleNamespace(text=text, status=0, words=["boot", "flash", "script", "--turns", "900"])
            self.assertEqual(steps_of(case), steps)
        self.assertEqual(steps_of(SimpleNamespace(text="usage", status=2, words=["--turns", "x"])), 0)

    def test_those_that_are_left_out(self):
        usual = dict(text="end done steps 5", status=0, words=["list"], is_open=False)
        self.assertTrue(is_evaluated(SimpleNamespace(**usual)))
        for other in (dict(is_open=True), dict(text="end done steps 5000"), dict(words=[b"\xff"])):
            self.assertFalse(is_evaluated(SimpleNamespace(**{**usual, **other})))


def run():
    """Runs all of these, and answers the exit status."""
    tests = unittest.TestSuite(unittest.defaultTestLoader.loadTestsFromTestCase(case)
                               for case in (Evaluating, Table, Examples))
    return 0 if unittest.TextTestRunner().run(tests).wasSuccessful() else 1
