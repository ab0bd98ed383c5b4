"""The count of the lines that a reader must believe: on a small tree, and that the real one resolves."""

import subprocess
import sys
import tempfile
import unittest
from pathlib import Path

from support import ROOT, TOOLS
from promises.code import read_code
from promises.errors import SourceError
from promises.report import CALLS, CLAIMS, EXPORTS, PROGRAM, Promises, in_order, library, table, unreached

FILES = {
    "crates/a/src/grid.rt": """
#[derive(Clone, Copy)]
pub struct Grid {
    pub rows: usize,
    pub kind: Kind,
}
pub enum Kind {
    Plain,
    Marked(usize),
}
""",
    "crates/a/specs/Base.antt": """-- a comment
use Rattle.std.specs.Prelude.{ℕ, zero, suc, ◌+◌}
use mathlib.Core.List.{List, [], ◌∷◌}
use Rattle.a.specs.declared.grid.Grid.{Grid as GridStruct}

pub data Side : Type 0 where
  left right : Side

pub record Pair (n : ℕ) : Type 0 where
  pub first : ℕ
  pub unused : ℕ

module _ {A : Type 0} where
  -- a local function, and a name that a pattern hides
  unfoldable pub size : List A → ℕ
  size [] = zero
  size (unused ∷ xs) = grown (size xs)
    where
      grown : ℕ → ℕ
      grown n = suc n

unfoldable pub unused : ℕ → ℕ
unused n = n

unfoldable pub rows_of : GridStruct → ℕ
rows_of g = g.rows
""",
    "crates/b/specs/Claim.antt": """
use Rattle.std.specs.Prelude.{ℕ}
use mathlib.Core.List.{List}
use Rattle.a.specs.Base.{Side, left, right, size as length, Pair, rows_of, unused}

unfoldable pub other : Side → ℕ
other left = 0
other right = 1

pub record Best (unused : ℕ) (xs : List ℕ) : Type 0 where
  pub pair : Pair unused
  pub size : (λ n. length n) xs
""",
    "crates/b/src/call.rt": """
#![tactic(auto)]

ghost use Rattle.core.specs.Path.{◌≡◌};
ghost use Rattle.a.specs.Base.{rows_of};
ghost use Rattle.b.specs.Claim.{Best, other};

use a::grid::{Grid, Kind};

pub(crate) fn kind_of(given: Grid) -> Kind {
    given.kind
}
pub fn call(xs: &[u8], given: Grid, ys: &mut [u8]) -> usize
    requires { rows_of given ≡ 1 }
    ensures best { Best result xs.now }
    ensures same { ys.new ≡ ys.old }
{
    0
}
""",
    "crates/c/src/lib.rt": """
ghost use Rattle.core.specs.Path.{◌≡◌};
ghost use Rattle.a.specs.Base.{rows_of};
ghost use Rattle.b.specs.Claim.{Best};

use a::grid::Grid;

#[unsafe(no_mangle)]
pub extern "C" fn call(
    xs: &[u8],
    given: Grid,
    ys: &mut [u8],
) -> usize
    requires { rows_of given ≡ 1 }
    ensures best { Best
        result xs.now }
    ensures same { ys.new ≡ ys.old }
{
    b::call::call(xs, given, ys)
}
""",
}
CALL = {"call": "crates/b/src/call.rt"}
BEST = (("crates/b/specs/Claim.antt", "Best"),)
EXPORTED = "crates/c/src/lib.rt"


def followed(file: str = "Claim.antt", **changed: str) -> Promises:
    """The small tree's promises, with words of its claim changed, or of another file."""
    with tempfile.TemporaryDirectory() as folder:
        for path, text in FILES.items():
            for word, other in changed.items() if path.endswith(file) else ():
                text = text.replace(word, other)
            (Path(folder) / path).parent.mkdir(parents=True, exist_ok=True)
            (Path(folder) / path).write_text(text, encoding="utf-8")
        return Promises(Path(folder), CALL, {}, BEST, EXPORTED)


class SmallTree(unittest.TestCase):
    def test_lines_are_counted_by_file(self):
        promises = followed()
        rows = [line.split() for line in table(promises)]
        self.assertEqual(rows[1], ["crates/a/specs/Base.antt", "10", "10", "12", "12", "16"])
        self.assertEqual(rows[2], ["crates/b/specs/Claim.antt", "3", "3", "3", "3", "6"])
        self.assertEqual(rows[3], ["total", "13", "13", "15", "15", "22"])
        self.assertEqual(rows[4][-4:], ["0", "0", "8", "8"])

    def test_what_a_local_name_hides_is_not_reached(self):
        self.assertEqual(
            list(unreached(followed())),
            ["crates/a/specs/Base.antt: Side, unused", "crates/b/specs/Claim.antt: other"],
        )

    def test_reading_order_marks_the_claim(self):
        names = [line.split() for line in in_order(followed())]
        self.assertEqual(names[:3], [["crates/a/src/grid.rt"], ["4", "Grid"], ["4", "Kind"]])
        self.assertIn(["*", "3", "Pair"], names)
        self.assertIn(["2", "rows_of"], names)

    def test_a_constructor_belongs_to_its_type(self):
        for word in ("left", "Side.left"):
            self.assertNotIn("Side", " ".join(unreached(followed(**{"length n": f"length {word}"}))))

    def test_a_name_belongs_to_its_module(self):
        changed = {"use mathlib": "use Rattle.a.specs.Base as Base\nuse mathlib", "length n": "length Base.left"}
        self.assertNotIn("Side", " ".join(unreached(followed(**changed))))

    def test_fields_stand_behind_a_name_or_a_bracket(self):
        for word in ("n.first", "(length n).first", "length.first", "n.first.unused", "n.first.0", "left.first"):
            with self.subTest(word):
                self.assertGreater(followed(**{"length n": word}).total("claim"), 0)

    def test_library_names(self):
        self.assertEqual(
            list(library(followed())),
            [
                "Rattle.core.specs.Path: ◌≡◌",
                "Rattle.std.specs.Prelude: suc, zero, ℕ",
                "mathlib.Core.List: List, [], ◌∷◌",
            ],
        )

    def test_a_sign_is_each_word_between_its_arguments(self):
        changed = {"{ℕ}": "{ℕ, if◌then◌else◌, ◌+◌}", "length n": "if n then n + n else n"}
        self.assertIn("Rattle.std.specs.Prelude: if◌then◌else◌, ℕ, ◌+◌", list(library(followed(**changed))))

    def test_an_unknown_name_is_an_error(self):
        for word, other, said in (
            ("length n", "lenght n", "crates/b/specs/Claim.antt: Best: what is lenght?"),
            ("rows_of,", "row_of,", "crates/a/specs/Base.antt defines no row_of"),
            ("length n", "n.third", "crates/b/specs/Claim.antt: Best: of what is .third a field?"),
            ("length n", "(length n).third", "crates/b/specs/Claim.antt: Best: of what is .third a field?"),
            ("length n", "length.third", "crates/b/specs/Claim.antt: Best: of what is .third a field?"),
            ("length n", "n.first.third", "crates/b/specs/Claim.antt: Best: of what is .third a field?"),
            ("length n", "n.now", "crates/b/specs/Claim.antt: Best: of what is .now a field?"),
            ("length n", "Side.first", "crates/b/specs/Claim.antt: Best: what is Side.first?"),
            ("length n", "lenght.first", "crates/b/specs/Claim.antt: Best: what is lenght.first?"),
            ("Rattle.a.specs.Base", "Rattle.a.specs.Bare", "no such file: crates/a/specs/Bare.antt"),
        ):
            with self.subTest(other), self.assertRaises(SourceError) as caught:
                followed(**{word: other})
            self.assertEqual(str(caught.exception), said)

    def test_an_unknown_name_elsewhere_is_an_error(self):
        for file, word, other, said in (
            ("call.rt", "Best result", "Best outcome", "crates/b/src/call.rt: call, best: what is outcome?"),
            ("call.rt", "rows_of given", "rows_of result", "crates/b/src/call.rt: call, requires: what is result?"),
            ("call.rt", "xs.now", "xs.then", "crates/b/src/call.rt: call, best: of what is .then a field?"),
            ("Base.antt", "Grid as GridStruct", "Grad", "crates/a/src/grid.rt: Grid has no Grad"),
            ("Base.antt", "grid.Grid.{", "grid.Kind.TheVariants.{", "crates/a/src/grid.rt: Kind has no Grid"),
            ("Base.antt", "grid.Grid.{", "grid.Grad.{", "crates/a/src/grid.rt declares no Grad"),
        ):
            with self.subTest(other), self.assertRaises(SourceError) as caught:
                followed(file, **{word: other})
            self.assertEqual(str(caught.exception), said)

    def test_what_is_exported_promises_the_same(self):
        for word, other in (
            ("    ensures same { ys.new ≡ ys.old }\n", ""),
            ("rows_of given", "rows_of given ≡ rows_of given"),
            ("ensures same", "requires same"),
            ("Path.{◌≡◌}", "Other.{◌≡◌}"),
        ):
            with self.subTest(other), self.assertRaises(SourceError) as caught:
                followed(EXPORTED, **{word: other})
            said = "crates/c/src/lib.rt: call does not promise what it does in crates/b/src/call.rt"
            self.assertEqual(str(caught.exception), said)

    def test_imports_of_code(self):
        code = read_code("lib.rt", "use a::b::{\n    C,\n    D,\n};\nuse e::F;\nghost use G.{\n    h,\n};\n")
        self.assertEqual(code.uses, {"C": "a::b::C", "D": "a::b::D", "F": "e::F"})
        self.assertEqual(code.imports, ["use G.{ h, }"])


class RealTree(unittest.TestCase):
    def test_it_resolves(self):
        promises = Promises(ROOT, CALLS, PROGRAM, CLAIMS, EXPORTS)
        totals = [promises.total(column) for column in ("claim", "promise", "calls", "all")]
        self.assertEqual(totals, sorted(totals))
        self.assertGreater(totals[0], 0)

    def test_a_total_that_is_too_high_fails(self):
        for most, status in ((("0", "9999"), 1), (("9999", "0"), 1), (("9999", "9999"), 0)):
            command = [sys.executable, "-B", str(TOOLS / "believed"), "--check", *most]
            self.assertEqual(subprocess.run(command, capture_output=True, check=False).returncode, status)
