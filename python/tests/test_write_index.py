"""`tools/pages/write_index` on pieces of code, and the layers of crates.txt."""
import importlib.machinery
import importlib.util
import sys
import unittest
from pathlib import Path

TOP = Path(__file__).resolve().parents[2]
CODE = """\
//! What the file is about.

/// A number, as [`next`] gives it. More of it.
#[derive(Clone)]
pub struct Number {
    value: u32,
}

impl Number {
    /// The number
    /// after this one
    ///
    /// It fits.
    // For readers of the code.
    #[inline]
    pub fn next(&self) -> Number
        requires fits { value self.now < 3 }
        ensures value { value result ≡
            value self.now + 1 }
        ensures fits { value result < 4 }
    {
        step(self)
    }

    /// It is private.
    fn hidden(&self) {}
}

/// The sum.
impl Add for Number {
    fn add(self, other: Number) -> Number {
        other
    }
}

/// What counts.
pub trait Counts {
    /// How many.
    fn count(&self) -> u32
        ensures bound { result ≡ result };
}

/// It is private, too.
fn step(number: &Number) -> Number {
    number.next()
}

/// A law.
pub fn law<K: Reals>()
    ensures { one ≡ one }
{}
"""
CRATES = """\
# All crates.

# Base: words, and
# lines.
low: itoa
high staticlib: low

# The end.
last: high
"""


def module():
    loader = importlib.machinery.SourceFileLoader("write_index", str(TOP / "tools/pages/write_index"))
    made = importlib.util.module_from_spec(importlib.util.spec_from_loader("write_index", loader))
    sys.dont_write_bytecode = True
    sys.modules["write_index"] = made
    loader.exec_module(made)
    return made


class Index(unittest.TestCase):
    def test_calls(self):
        tool = module()
        found = [tuple(call) for call in tool.calls_of(CODE)]
        expected = [
            ("struct", "Number", "", "A number, as `next` gives it.", []),
            ("fn", "next", "Number", "The number after this one", ["fits", "value"]),
            ("impl", "Add", "Number", "The sum.", []),
            ("trait", "Counts", "", "What counts.", []),
            ("fn", "count", "Counts", "How many.", ["bound"]),
            ("fn", "law", "", "A law.", []),
        ]
        self.assertEqual(found, expected)
        self.assertEqual(
            tool.call_lines(tool.Call(*expected[1])),
            ["  - `next` (`fits`, `value`): The number after this one"],
        )

    def test_layers(self):
        expected = [("Base", "Words, and lines.", ["low", "high"]), ("The end", "", ["last"])]
        self.assertEqual([tuple(layer) for layer in module().layers(CRATES)], expected)


if __name__ == "__main__":
    unittest.main()
