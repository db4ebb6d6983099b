"""Tries the tool on small sources: what is reached, what the pages say, and each fault."""

import unittest
from types import SimpleNamespace

import aliases
import faults
from closure import Names, closure, contract_of, opened
from laws_page import laws_page
from layout import Layout, beside, one_behind_another
from page import headline_page
from reach import reach
from small_items import Reading
from items import read_module
from sources import Sources, Unread, read_spec

BASE = """\
-- Sums and pairs (RISC-V unprivileged manual, "Sums").
use Rattle.std.specs.Prelude.{ℕ, ◌+◌}

-- the double of a number
abbrev pub double : ℕ → ℕ
double x = x + x

-- two numbers
pub record Pair : Type 0 where
  pub left : ℕ
  pub right : ℕ

-- nothing names this
abbrev pub idle : ℕ → ℕ
idle x = double x
"""

TOP = """\
-- What the program promises. It is this board's own.
use Rattle.std.specs.Prelude.{ℕ, List, [], ◌∷◌}
use Rattle.base.specs.Sums.{Pair, double as twice}
use Rattle.base.specs.Sums as sums
use Rattle.top.specs.declared.state.State.{State}
use Rattle.top.specs.declared.state.State.TheVariants.{On, Off}

-- which way
pub data Way : Type 0 where
  Up : Way
  Down : Way

-- a state and the sum of a way -- with a comment behind
abbrev pub Promises : State → Way → Type 0
Promises On Up = Holds (twice 1)
Promises Off idle = Holds 0 -- idle is a variable

pub record Holds (pair : ℕ) : Type 0 where
  pub double : ℕ
"""

CODE = """\
ghost use Rattle.top.specs.Promise.{Promises, Up};

/// Keeps the [`State`](crate::state::State) of a promise.
#[inline]
pub fn keep(state: State) -> u8
    requires { state ≡ state }
    ensures { Promises state Up }
{
    0
}
"""

LAW = """\
ghost use Rattle.base.specs.Sums.{idle as lazy};

/// It idles.
pub fn it_idles()
    ensures { lazy 1 ≡ 2 }
{}

pub fn it_works(by: u8)
    ensures { lazy by ≡ 2 }
{}
"""

CLAIMS = "# Claims\n## Rest\n\nOf `crates/top/src/law.rt`.\n\n- `it_idles`, `it_works`: both\n"

STATE = """\
/// On or off.
#[derive(Clone)]
pub enum State {
    /// It is on.
    On {
        since: u8,
        until: u8,
    },
    Off(Seen),
}

pub struct Seen {
    inner: Hidden,
    spare: Unread,
}

pub struct Hidden(u8);

pub struct Unread(u8);

impl Model for Seen {
    ghost use Rattle.base.specs.Sums.{Pair};

    ghost Value = { Pair };

    ghost view = { λ s. seen_of s.inner };
}
"""


def plan(**other):
    """A table of sections for the small sources."""
    usual = dict(HEADLINE=("top/lib.rt", "keep"), LIMIT=100, LINES=1000, BOARD=("top/state.rt", "Seen"), STEPS=[],
                 SECTIONS=[("First", ["top"]), ("Then", ["base"])], GUARANTEES=[], GIVEN=None,
                 ASSUMPTIONS=[("Trust this.", "a fault", "a test"), ("And that.", "a flaw", "a look")],
                 SENTENCE="It keeps its promise.", PARTS=["*Promise*: `Promises`."], NOT_PROMISED=["That it is fast."],
                 PICTURE="State -> Way", ARROWS=[("->", "it `Promises`", "1")],
                 FIRST=[("top/Promise:Holds", "what holds")], PROOFS_ONLY="Only proofs use this")
    return SimpleNamespace(**{**usual, **other})


def small(top=TOP, base=BASE, code=CODE):
    """The small sources."""
    state = STATE.replace("ghost Value", "ghost use Rattle.base.specs.Sums.{double as seen_of};\n\n    ghost Value")
    specs = {("top", "Promise"): read_spec("top", "Promise", top), ("base", "Sums"): read_spec("base", "Sums", base)}
    files = (("lib.rt", code), ("state.rt", state), ("law.rt", LAW))
    modules = {("top", file): read_module("top", file, text) for file, text in files}
    modules["top", "lib.rt"].uses["State"] = ("crate::state", "State")
    return Sources(specs, modules)


def names_of(found):
    """The names of definitions or types."""
    return [each.name for each in found]


def library(**other):
    """The sentences on words of the library: on those that the small sources use, and others."""
    return [("Words", {"ℕ": "numbers", **other})]


def pages_of(sources, documents=(), **other):
    """The two pages of small sources, under a table of sections."""
    names, made = Names(sources), plan(**other)
    layout = Layout(names, made, reach(names, made, documents))
    return headline_page(layout), laws_page(layout)


def faults_of(sources, told=None, **other):
    """What is wrong with sources under a table of sections, and under sentences on words of the library."""
    made = plan(**other)
    return faults.source_faults(sources, made, reach(Names(sources), made, []), told or library(**{"◌+◌": "sums"}))


class Following(unittest.TestCase):
    """What a contract rests on."""

    def setUp(self):
        self.names = Names(small())
        self.under = closure(self.names, contract_of(self.names, "top/lib.rt", "keep").starts)

    def test_definitions_through_aliases(self):
        self.assertEqual(names_of(self.under.definitions), ["Promises", "Pair", "Way", "Holds", "double"])

    def test_types_by_their_values(self):
        self.assertEqual(names_of(self.under.types), ["State", "Seen"])
        self.assertEqual(self.under.types[1].value, "Pair")

    def test_opened_types_by_their_fields(self):
        found = opened(self.names, self.names.view_of("top/state.rt", "Seen") + self.under.types)
        self.assertEqual(names_of(found.types), ["State", "Seen", "Hidden"])

    def test_lines_without_comments(self):
        self.assertEqual((self.under.size, self.under.files), (13, ["top/Promise", "base/Sums"]))
        self.assertEqual(self.under.types[0].code()[1:3], ["    On { since: u8, until: u8 },", "    Off(Seen),"])

    def test_library(self):
        self.assertIn(("Rattle.std.specs.Prelude", "◌+◌"), self.under.library)

    def test_variables_that_are_named_as_definitions(self):
        self.assertNotIn("idle", names_of(self.under.definitions))
        names = Names(small(top=TOP.replace("{Pair,", "{Pair, idle,")))
        under = closure(names, contract_of(names, "top/lib.rt", "keep").starts)
        self.assertIn("idle", names_of(under.definitions))

    def test_names_of_a_whole_module(self):
        names = Names(small(top=TOP.replace("Holds (twice 1)", "Holds (sums.idle 1)")))
        under = closure(names, contract_of(names, "top/lib.rt", "keep").starts)
        self.assertIn("idle", names_of(under.definitions))

    def test_names_that_are_passed_on(self):
        sources = small(top=TOP.replace("base.specs.Sums.{Pair,", "base.specs.Passing.{Pair,"))
        passing = "-- Sums, passed on.\npub use Rattle.base.specs.Sums.{Pair, double}\n"
        sources.specs["base", "Passing"] = read_spec("base", "Passing", passing)
        names = Names(sources)
        under = closure(names, contract_of(names, "top/lib.rt", "keep").starts)
        self.assertEqual(names_of(under.definitions), names_of(self.under.definitions))

    def test_names_that_are_nowhere(self):
        names = Names(small(top=TOP.replace("double as twice", "treble as twice")))
        with self.assertRaisesRegex(Unread, "Promises of top/Promise: .*treble"):
            closure(names, contract_of(names, "top/lib.rt", "keep").starts)

    def test_lines_that_are_not_understood(self):
        with self.assertRaisesRegex(Unread, "top/Odd.antt:1"):
            read_spec("top", "Odd", "double x = 1\n")


class Page(unittest.TestCase):
    """What the pages say."""

    def setUp(self):
        self.sources = small()
        self.reached = reach(Names(self.sources), plan(), [CLAIMS])
        self.made, self.laws = pages_of(self.sources, [CLAIMS])

    def test_contract_and_assumptions(self):
        self.assertIn("pub fn keep(state: State) -> u8\n    requires", self.made)
        self.assertIn("Keeps the `State` of a promise.", self.made)
        self.assertIn("The contract asks of its caller:", self.made)
        self.assertIn("| 1 | Trust this. | a fault | a test |\n| 2 | And that. | a flaw | a look |\n", self.made)

    def test_order(self):
        heads = ("**It keeps its promise.**", "## What is not promised\n\n- That it is fast.\n", "State -> Way",
                 "| -> | it `Promises` | 1 |", "## Assumptions", "## How definitions are written",
                 "## The words of the library", "## What to read first", "## The contract of `keep`", "## 1. First")
        places = [self.made.index("\n" + head) for head in heads if not head.startswith(("*", "S"))]
        self.assertEqual(places, sorted(places))
        self.assertTrue(all(head in self.made for head in heads))

    def test_definitions_in_sections(self):
        self.assertIn("## 1. First\n\n3 definitions in 1 file, 8 lines.", self.made)
        self.assertIn("-- two numbers\npub record Pair", self.made)
        self.assertIn('Sums and pairs (RISC-V unprivileged manual, "Sums").', self.made)

    def test_definitions_by_name(self):
        sections = [("Nouns", ["base/Sums:Pair", "top/Promise:Way"]), ("Rest", ["base", "top"])]
        made, _ = pages_of(self.sources, SECTIONS=sections)
        self.assertLess(made.index("record Pair"), made.index("data Way"))
        self.assertLess(made.index("data Way"), made.index("double : ℕ"))
        self.assertIn("### base/specs/Sums.antt\n", made)
        self.assertIn("### base/specs/Sums.antt (2)\n", made)

    def test_what_to_read_first(self):
        self.assertIn("1. [`Holds`](#topspecspromiseantt): what holds.", self.made)
        with self.assertRaisesRegex(Unread, "nothing is reached of top/Promise:Gone"):
            pages_of(self.sources, FIRST=[("top/Promise:Gone", "what is gone")])

    def test_links(self):
        self.assertIn("`Promises` → `Way`, `Holds`, [`double`](#basespecssumsantt) ← [`keep`](#the-contract-of-keep)"
                      "<br>`Holds` ← `Promises`\n", self.made)
        self.assertIn("`idle` → [`double`](headline.md#basespecssumsantt) ← [`it_idles`](#it_idles)\n", self.laws)
        self.assertIn("[`idle`](laws.md#basespecssumsantt)", self.made)

    def test_users_that_are_many(self):
        more = "".join("\n-- one more\nabbrev pub more%d : ℕ\nmore%d = double 1\n" % (n, n) for n in range(9))
        listed = ["more%d" % n for n in range(9)]
        top = TOP.replace("(twice 1)", "(twice (%s))" % " + ".join(listed))
        top = top.replace("{Pair,", "{Pair, %s," % ", ".join(listed))
        made, _ = pages_of(small(top, BASE + more))
        self.assertEqual(made.count(" and 2 more"), 1)

    def test_what_is_given(self):
        made, _ = pages_of(self.sources, [CLAIMS], GIVEN=("top/law.rt", "it_idles"))
        self.assertIn(" [`it_idles`](laws.md#it_idles) says it, with 1 definition in 1 file, 2 lines.", made)
        self.assertNotIn("says it, with", self.made)

    def test_short_definitions_stand_close(self):
        found = list(self.sources.specs["base", "Sums"].definitions.values())
        self.assertNotIn("\n\n", one_behind_another(found))
        found[0].written += "\n" * 20
        self.assertIn("\n\n-- two numbers", one_behind_another(found))

    def test_types(self):
        self.assertIn("/// On or off.\npub enum State {\n", self.made)
        self.assertIn("    On { since: u8, until: u8 }, // It is on.", self.made)
        self.assertIn("struct Seen: seen as `Pair`", self.made)

    def test_comments_beside(self):
        self.assertEqual(beside(["    /// One.", "    a: u8,"]), ["    a: u8, // One."])
        for lines in (["    /// One", "    /// line more.", "    a: u8,"], ["    /// " + "long " * 30, "    a: u8,"]):
            self.assertEqual(beside(lines), lines)

    def test_laws_that_are_cited(self):
        self.assertIn("## Laws: Rest", self.laws)
        self.assertIn("### `it_idles`\n`top/src/law.rt`. Here `lazy` is `idle` of `base/Sums`.\n", self.laws)
        self.assertIn("#### base/specs/Sums.antt", self.laws)
        self.assertIn("idle : ", self.laws)
        self.assertNotIn("it_works", self.laws)
        self.assertNotIn("it_idles", pages_of(self.sources)[1])

    def test_other_names(self):
        self.assertIn("Here `twice` is `double` of `base/Sums`.", self.made)
        wanted = "Here `twice` is `double` of `base/Sums`, `sums.` stands before names of `base/Sums`."
        made, _ = pages_of(small(top=TOP.replace("Holds (twice 1)", "Holds (sums.idle (twice 1))")))
        self.assertIn(wanted, made)
        self.assertEqual([here for _, _, here in aliases.renamed(self.sources, self.reached)], ["twice"])

    def test_names_that_the_library_has_too(self):
        reached = SimpleNamespace(parts=self.reached.parts, library={"double", "ℕ"})
        self.assertEqual(aliases.ambiguous(reached), {"double": ["base/specs/Sums.antt", aliases.OF_LIBRARY]})

    def test_words_of_the_library(self):
        self.assertIn("| `◌+◌` | The sum. |", self.made)
        self.assertNotIn("| `min` |", self.made)

    def test_numbers(self):
        self.assertEqual(self.reached.lines(), [3, 13, 5, 0])
        form = ("It rests on %d definitions in 2 files (%d lines), %d lines as they are printed, all five guarantees "
                "on %d.")
        document, wanted = form % (1, 3, 4, 5), form % (5, 13, 21, 21)
        self.assertEqual(faults.with_numbers(document, self.reached), wanted)
        self.assertEqual(faults.other_numbers(self.reached, wanted), [])
        self.assertEqual(len(faults.other_numbers(self.reached, document)), 2)
        self.assertEqual(len(faults.other_numbers(self.reached, "")), 2)

    def test_pages_that_are_kept(self):
        self.assertEqual(faults.stale({"a.md": (self.made, self.made)}), [])
        self.assertEqual(faults.stale({"a.md": (self.made, self.made), "b.md": (self.laws, "")}),
                         ["docs/b.md is not what the sources give: run checks/headline"])

    def test_numbers_of_all_guarantees(self):
        reached = reach(Names(self.sources), plan(GUARANTEES=[("top/law.rt", "it_idles")]), [])
        self.assertEqual(reached.lines_of_guarantees(), [5, 15, 5, 0])


class Faults(unittest.TestCase):
    """Each fault of sources, alone."""

    def sound(self, text=TOP):
        """Sources of which each definition has a comment."""
        return text.replace("pub record Holds", "-- a number\npub record Holds")

    def test_none(self):
        self.assertEqual(faults_of(small(self.sound())), [])

    def test_no_comment(self):
        self.assertEqual(faults_of(small()), ["top/specs/Promise.antt:18: Holds has no comment"])

    def test_comments_of_others(self):
        joined = TOP.replace("variable\n\npub record", "variable\npub record")
        self.assertEqual(faults_of(small(joined)), ["top/specs/Promise.antt:17: Holds has no comment"])

    def test_heads_of_lone_definitions(self):
        lone = "-- One (a manual).\nuse Rattle.std.specs.Prelude.{ℕ}\n\nabbrev pub one : ℕ\none = 1\n"
        self.assertTrue(read_spec("base", "One", lone).definitions["one"].is_explained)
        bare = lone.replace("-- One (a manual).\n", "")
        self.assertFalse(read_spec("base", "One", bare).definitions["one"].is_explained)

    def test_no_source(self):
        none = ["base/Sums: its head comment names no standard with its section"]
        for source in ("", "a manual", "unprivileged manual", "TRD 104", "Tock's kernel", "Levy et al., SOSP 2017"):
            base = BASE.replace('RISC-V unprivileged manual, "Sums"', source)
            self.assertEqual(faults_of(small(self.sound(), base)), none)

    def test_other_sources(self):
        for source in ('TRD 104, "Yield"', "driver 0x1", "this kernel's own", "Levy et al., SOSP 2017, section 4"):
            base = BASE.replace('RISC-V unprivileged manual, "Sums"', source)
            self.assertEqual(faults_of(small(self.sound(), base)), [])

    def test_proofs_only(self):
        base = BASE.replace("Sums and", "Only proofs use this: sums and")
        self.assertEqual(faults_of(small(self.sound(), base)), ["base/Sums is marked for proofs only, and is reached"])

    def test_words_without_a_sentence(self):
        self.assertEqual(faults_of(small(self.sound()), library(max="the greater")),
                         ["checks/believed/library.py has no sentence on ◌+◌"])

    def test_parts_that_are_nowhere(self):
        self.assertEqual(faults_of(small(self.sound()), PARTS=["`Promises`, field `left`, by `Gone`"]),
                         ["checks/believed/sections.py: Gone is nowhere on the page"])

    def test_pictures_of_what_is_nowhere(self):
        wrong = "checks/believed/sections.py: %s is nowhere on the page"
        self.assertEqual(faults_of(small(self.sound()), PICTURE="State -> Gone -> gone_too"),
                         [wrong % "Gone", wrong % "gone_too"])
        self.assertEqual(faults_of(small(self.sound()), ARROWS=[("->", "`gone`", "1")]), [wrong % "gone"])

    def test_no_section(self):
        found = faults_of(small(self.sound()), SECTIONS=[("First", ["top", "gone/File"])])
        self.assertEqual(found, ["base/Sums is in no section of checks/believed/sections.py",
                                 "checks/believed/sections.py: nothing is reached of gone/File"])

    def test_too_long(self):
        self.assertEqual(len(faults_of(small(self.sound()), LIMIT=10)), 1)

    def test_too_many_lines(self):
        made, _ = pages_of(small())
        self.assertEqual(faults.too_many_lines(plan(), made), [])
        self.assertEqual(len(faults.too_many_lines(plan(LINES=10), made)), 1)

    def test_a_law_of_what_is_given_that_none_cites(self):
        self.assertEqual(faults_of(small(self.sound()), GIVEN=("top/law.rt", "it_idles")),
                         ["checks/believed/sections.py: no document cites the law it_idles"])

    def test_functions_that_are_gone(self):
        with self.assertRaisesRegex(Unread, "no public function lose"):
            reach(Names(small()), plan(HEADLINE=("top/lib.rt", "lose")), [])


def run():
    """Runs all of these, and answers the exit status."""
    tests = unittest.TestSuite(unittest.defaultTestLoader.loadTestsFromTestCase(case)
                               for case in (Reading, Following, Page, Faults))
    return 0 if unittest.TextTestRunner().run(tests).wasSuccessful() else 1
