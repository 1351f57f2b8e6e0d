"""`tools/pages/list_definitions` over a small made-up repository."""
import importlib.machinery
import importlib.util
import sys
import tempfile
import unittest
from pathlib import Path

TOP = Path(__file__).resolve().parents[2]
SCRIPT = str(TOP / "tools/pages/list_definitions")
FILES = {
    "crates.txt": "low:\nhigh staticlib: low\n",
    "crates/low/specs/Sets.antt": """\
-- Sets of numbers (own), and their least (Cantor 1874). More of them.
use Rattle.std.specs.Prelude.{ℕ, ◌≡◌}

-- kinds
pub data Kind : Type 0 where
  empty : Kind
  full : ℕ → Kind

-- a set
pub record Set (most : ℕ) : Type 0 where
  pub has : ℕ → Type 0
  pub least : has most

abbrev pub most : ℕ
most = 3

infixl 6 ◌⊕◌
unfoldable pub ◌⊕◌ : ℕ → ℕ → ℕ
x ⊕ y = x

abbrev pub is_full : Kind → ℕ
is_full (full most) = most
is_full empty = 0
""",
    "crates/low/src/lib.rt": """\
mod shapes;
pub use shapes::Shape;
""",
    "crates/low/src/shapes.rt": """\
/// What is seen as a set.
pub struct Hidden {
    inner: u32,
}

impl Model for Hidden {
    ghost use Rattle.low.specs.Sets.{Set};

    ghost Value = { Set 3 };
}

/// A shape.
pub struct Shape {
    // Not of the type Other.
    pub kind: Side,
    pub hidden: Vec<Hidden>,
}

pub enum Side {
    Left,
    Right(u32),
}

pub struct Other;
""",
    "crates/high/specs/Words.antt": """\
-- What words say.
use Rattle.low.specs.Sets.{most, is_full, ◌⊕◌}
use Rattle.low.specs.Sets.Kind.{empty}
use Rattle.low.specs.declared.shapes.Shape.{Shape}
use Rattle.low.specs.declared.shapes.Side.TheVariants as side

-- binds the name of a definition
abbrev pub binds : ℕ → ℕ
binds most = (λ unused. most) 0

abbrev pub names : Shape → ℕ
names s = record {
  most = elim s.kind [ side.Left ↦ 1 ⊕ 2 | side.Right binds ↦ binds ];
}.most

abbrev pub cites : ℕ
cites = most

abbrev pub unused : Type 0
unused = ℕ
""",
    "crates/high/src/lib.rt": """\
ghost use Rattle.std.specs.Prelude.{ℕ};
ghost use Rattle.high.specs.Words.{binds, names, cites, unused};

pub use status::Status;

/// A call.
pub fn call(n: u32) -> Status
    // The clause that `cites` nothing.
    ensures first { (cites : ℕ) → result ≡ Status.Done → binds cites ≡ 0 }

    ensures second { names n ≡ 0 → cites ≡ 1 }
{
    unused
}

/// A law.
pub fn law()
    ensures { cites ≡ 3 → unused }
{}
""",
    "crates/high/src/status.rt": "pub enum Status {\n    Done,\n}\n",
}


def module():
    loader = importlib.machinery.SourceFileLoader("list_definitions", SCRIPT)
    made = importlib.util.module_from_spec(
        importlib.util.spec_from_loader("list_definitions", loader)
    )
    sys.dont_write_bytecode = True
    sys.modules["list_definitions"] = made
    loader.exec_module(made)
    return made


class Reached(unittest.TestCase):
    def setUp(self):
        self.tool = module()
        folder = tempfile.TemporaryDirectory()
        self.addCleanup(folder.cleanup)
        for name, text in FILES.items():
            path = Path(folder.name) / name
            path.parent.mkdir(parents=True, exist_ok=True)
            path.write_text(text, encoding="utf-8")
        self.sources = self.tool.Sources(folder.name)

    def names(self, function, clause=None, given=frozenset()):
        root = self.tool.Root("a command", "high", function, clause, given)
        part = self.tool.part_of(self.sources, root)
        found = {each.name for each in part.definitions()}
        return found, {each.name for each in part.types()}

    def test_a_bound_name_reaches_nothing(self):
        self.assertEqual(self.names("call", "first"), ({"binds"}, {"Status"}))

    def test_types_by_their_fields_and_models(self):
        definitions = {"names", "cites", "most", "Set", "◌⊕◌"}
        self.assertEqual(self.names("call", "second"), (definitions, {"Shape", "Side"}))

    def test_a_whole_contract_without_what_is_given(self):
        self.assertEqual(self.names("law")[0], {"cites", "most", "unused"})
        self.assertEqual(self.names("law", given=frozenset({"cites"}))[0], {"unused"})

    def test_makers_and_variables_in_patterns(self):
        key = self.tool.Definition("low", "Sets", "is_full")
        found = {each.name for each in self.sources.reached([key]) if each != key}
        self.assertEqual(found, {"Kind"})

    def test_the_lists(self):
        roots = [
            self.tool.Root("a", "high", "call", "second"),
            self.tool.Root("b", "high", "law"),
            self.tool.Root("b", "high", "call", "first"),
        ]
        parts = [self.tool.part_of(self.sources, root) for root in roots]
        lines = self.tool.lists(self.sources, parts).splitlines()
        for line in (
            "| a | `second` of `call` | `high` | 5 | 13 | 2 |",
            "| b | `law` | `high` | 3 | 6 | 0 |",
            "| b | `first` of `call` | `high` | 1 | 2 | 1 |",
            "2 definitions in 1 module, 4 lines besides.",
            "- `low/specs/Sets`, 1 definition, 2 lines (`most`). Sets of numbers, and their least.",
            "- `low`: `Shape`, `Side`.",
            "- `high`: `Status`.",
        ):
            self.assertIn(line, lines)
        self.assertEqual(lines.count("### B"), 1)


if __name__ == "__main__":
    unittest.main()
