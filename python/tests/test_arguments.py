"""Arguments of a wrong type: each is an error that says where the value stands, and none is taken
for something else."""
import numbers
import sys
import unittest
from decimal import Decimal
from fractions import Fraction
from types import MappingProxyType

import gjcut
from gjcut import Column, Constraint, Function, Point, command_line, explain, safe_cut, sentences

X = Column("x", True, 0, None)
C = Constraint("c", {"x": 1}, "<=", "7/2")
GMIC = "gj-function 2\nf 3/5\npoint 0 0\npoint 3/5 1\nend\n"
F = Function(GMIC)


class Truth:
    """A value that is no bool and yet true, as a bool of another package."""

    def __bool__(self):
        return True


class Short:
    """A whole number of another package, of eight bits."""

    def __init__(self, value):
        self.value = value % 256

    numerator = property(lambda self: self)
    denominator = property(lambda self: Short(1))

    def __index__(self):
        return self.value

    def __rmul__(self, other):
        return Short(other * self.value)


numbers.Integral.register(Short)


class Word(str):
    """A text that prints another one, as some enumerations do."""

    def __str__(self):
        return "Word." + self[:]

    def __format__(self, _):
        return str(self)


def problem(column=X, constraint=C, multiplier=1, **words):
    return safe_cut([column], [constraint], [multiplier], **words)


def row(*fields, rule="gmic", columns=("a",)):
    return gjcut.cut(rule, columns, [fields])


class Wrong(unittest.TestCase):
    def refuse(self, kind, place, call, *values):
        """Each value gives an error of the kind, and the place stands at its front."""
        for value in values:
            with self.assertRaisesRegex(kind, "^" + place) as caught:
                call(value)
            self.assertNotIsInstance(caught.exception, (gjcut.Refused, gjcut.LibraryMissing))

    def test_whether_a_column_is_whole(self):
        self.refuse(
            TypeError,
            r"columns\[1\], is_whole of 'y': .* write True or 'whole', or False or 'continuous'",
            lambda kind: safe_cut([X, Column("y", kind, 0, None)], [C], [1]),
            1, 0, None, "w", "", "Whole", "continuous ", b"whole", 1.0, Truth(), ["whole"], {},
        )

    def test_columns_and_constraints(self):
        for argument, call, good in (
            ("columns", lambda given: safe_cut(given, [C], [1]), X),
            ("constraints", lambda given: safe_cut([X], given, [1]), C),
        ):
            kind = type(good).__name__
            self.refuse(
                TypeError, rf"{argument}: .* write a list of {kind}\(name, ", call,
                "abcd", b"abcd", {"x": good}, {1}, frozenset(), None, 4,
            )
            self.refuse(
                TypeError, rf"{argument}\[0\]: .* write {kind}\(name, ", call,
                good, ["abcd"], [{"a": 1, "b": 2, "c": 3, "d": 4}], [{1, 2, 3, 4}], [None], [4],
            )
            self.refuse(
                ValueError, rf"{argument}\[1\]: .* has \d fields: write {kind}\(name, ", call,
                [good, good[:3]], [good, (*good, None)], [good, ()],
            )

    def test_names_of_a_problem(self):
        names = 1, None, b"x", True, ("x",)
        self.refuse(TypeError, r"columns\[0\]: ", lambda x: problem(X._replace(name=x)), *names)
        self.refuse(
            TypeError, r"constraints\[0\]: ", lambda x: problem(X, C._replace(name=x)), *names
        )
        self.refuse(
            TypeError, r"constraints\[0\], (1|None|b'x'|True|\('x',\)): ",
            lambda x: problem(X, C._replace(entries={x: 1})), *names,
        )
        self.refuse(TypeError, r"at_upper\[1\]: ", lambda x: problem(at_upper=["x", x]), *names)

    def test_numbers_of_a_problem(self):
        values = True, False, 0.5, float("inf"), float("nan"), 1j, b"1", [1], {}, Truth()
        self.refuse(
            TypeError, r"columns\[0\], the lower bound: ",
            lambda x: problem(X._replace(lower=x)), *values,
        )
        self.refuse(
            TypeError, r"columns\[0\], the upper bound: ",
            lambda x: problem(X._replace(upper=x)), *values,
        )
        self.refuse(
            TypeError, r"constraints\[0\], the right side: ",
            lambda x: problem(X, C._replace(right=x)), None, *values,
        )
        self.refuse(
            TypeError, r"constraints\[0\], 'x': ",
            lambda x: problem(X, C._replace(entries={"x": x})), None, *values,
        )
        self.refuse(
            TypeError, r"multipliers\[0\]: ", lambda x: problem(X, C, x),
            True, False, 1j, b"1", [1], {}, None, Truth(),
        )
        self.refuse(
            ValueError, r"multipliers\[0\]: ", lambda x: problem(X, C, x),
            "a", "", "1/0", Decimal("NaN"), Decimal("Infinity"), float("nan"), float("-inf"),
        )

    def test_the_rest_of_a_problem(self):
        self.refuse(
            TypeError, r"constraints\[0\], the entries: ",
            lambda x: problem(X, C._replace(entries=x)),
            [("x", 1)], [1], "x", None, {"x"}, 1,
        )
        self.refuse(
            TypeError, r"constraints\[0\], the sense: ", lambda x: problem(X, C._replace(sense=x)),
            None, b"<=", 1, ("<=",),
        )
        self.refuse(
            TypeError, "at_upper: .* write a list of names", lambda x: problem(at_upper=x),
            "x", "xy", "", b"x", {"x": True}, None, 1,
        )
        self.refuse(
            TypeError, "grid: .* write an int", lambda x: problem(grid=x),
            2.0**20, True, False, "4", Fraction(4), Decimal(4), [4],
        )
        self.refuse(
            TypeError, "round: .* write an int from 1 to 2147483647, or None",
            lambda x: problem(round=x), 2.0**20, True, False, "4", Fraction(4), Decimal(4), [4],
        )
        self.refuse(
            ValueError, "round: .* is not from 1 to 2147483647", lambda x: problem(round=x),
            0, -4, 2**31, Short(0),
        )
        self.refuse(
            TypeError, "multipliers: .* write a list of numbers",
            lambda x: safe_cut([X], [C], x), "1", b"1", {"1": 1}, {1}, 1, None,
        )

    def test_rules(self):
        for call in (
            lambda rule: problem(rule=rule),
            lambda rule: row("x", "1/2", [1], rule=rule),
            lambda rule: gjcut.mixed(rule, ["a"], [("x", "1/2", [1])]),
        ):
            self.refuse(TypeError, "rule is .*, and no Function", call, None, 1, b"gmic", ["gmic"])
            self.refuse(ValueError, "rule: there is no rule", call, "", "GMIC", "gmic ")

    def test_points_and_values(self):
        for argument, call in (
            ("points", lambda given: gjcut.by_breakpoints("1/2", given)),
            ("values", lambda given: gjcut.by_values("1/2", given)),
        ):
            self.refuse(
                TypeError, f"{argument}: .* write a list of {argument}", call,
                "01", b"01", {0: 0}, {0: 0, "1/2": 1}, {(0, 0)}, None, 1,
            )
            values = True, 0.5, None, {0: 0}, {0, 1}, b"01", (0, 0.5), (0, True)
            given = [[(0, 0), value] for value in values]
            self.refuse(TypeError, rf"{argument}\[1\]: ", call, *given)
        self.refuse(
            TypeError, r"points\[0\]: .* write a place and a value",
            lambda x: gjcut.by_breakpoints("1/2", [x, ("1/2", 1)]), "00", 0,
        )
        self.refuse(
            ValueError, r"points\[0\]: ", lambda x: gjcut.by_breakpoints("1/2", [(0, x)]), "a"
        )
        self.refuse(ValueError, r"values\[0\]: ", lambda x: gjcut.by_values("1/2", [x]), "a", "1/0")
        self.refuse(TypeError, "f: ", lambda f: gjcut.by_breakpoints(f, [(0, 0)]), 0.5, True, None)
        self.refuse(TypeError, "f: ", lambda f: gjcut.by_values(f, [0, 1]), 0.5, True, None, [1])
        self.refuse(ValueError, "f: ", lambda f: gjcut.by_values(f, [0, 1]), "1/0", Decimal("NaN"))

    def test_words_of_a_family(self):
        self.refuse(TypeError, "name: ", gjcut.family, 1, None, b"gmic", True)
        self.refuse(ValueError, "name: ", gjcut.family, "", "gmic 1/2", "gmic\n", "\ud800")
        self.refuse(
            TypeError, r"words\[1\]: ",
            lambda x: gjcut.family("two-slope", 5, x), True, 0.5, None, b"+-",
        )
        self.refuse(
            ValueError, r"words\[0\]: ", lambda x: gjcut.family("gmic", x), "", "1/2 ", "\ud800"
        )

    def test_functions(self):
        for call in (gjcut.minimal, gjcut.extreme, gjcut.fill, gjcut.mirror):
            self.refuse(
                TypeError, "function is .* and no Function", call, GMIC, None, 1, [F], Function
            )
        self.refuse(TypeError, "function is an int", lambda x: gjcut.times(x, 2), 1)
        self.refuse(TypeError, "function is an int", lambda x: gjcut.restrict(x, 2), 1)
        values = 2.0, True, False, "2", Fraction(2), None
        self.refuse(TypeError, "n: .* write an int", lambda n: gjcut.times(F, n), *values)
        self.refuse(TypeError, "j: .* write an int", lambda j: gjcut.times(F, 2, j), *values)
        self.refuse(TypeError, "order: .* write an int", lambda n: gjcut.restrict(F, n), *values)

    def test_numbers_for_functions(self):
        values = True, False, 0.5, None, [1]
        self.refuse(TypeError, "x: ", F.at, *values)
        self.refuse(TypeError, "x: ", F.limits, *values)
        self.refuse(TypeError, "factor: ", lambda n: F * n, *values)
        self.refuse(TypeError, "factor: ", lambda n: n * F, True, 0.5)
        self.refuse(TypeError, "divisor: ", lambda n: F / n, *values)
        self.refuse(ValueError, "x: ", F.at, "a", Decimal("NaN"))

    def test_the_parts_of_a_function(self):
        half, point = Fraction(1, 2), Point(*map(Fraction, (0, 0, 0, 0)))
        self.refuse(
            TypeError, "a Function has a text, or f and points", lambda words: Function(**words),
            {}, {"text": GMIC, "f": half}, {"f": half}, {"points": [point]},
            {"text": GMIC, "points": [point]},
        )
        self.refuse(TypeError, "text: ", Function, 1, b"gj-function 1", [GMIC])
        self.refuse(TypeError, "f: ", lambda f: Function(f=f, points=[point]), 0.5, True)
        self.refuse(
            TypeError, r"points\[1\]: ",
            lambda x: Function(f=half, points=[point, x]), tuple(point), 1,
        )
        self.refuse(
            TypeError, "points: ",
            lambda x: Function(f=half, points=x), "01", 1, {point: 1}, {point},
        )

    def test_tableaux(self):
        self.refuse(
            TypeError, "columns: .* write a list of names",
            lambda x: row("x", "1/2", [1, 2], columns=x),
            "ab", b"ab", {"a": 1}, {"a", "b"}, None, 1,
        )
        self.refuse(
            TypeError, r"columns\[1\]: ", lambda x: row("x", "1/2", [1, 2], columns=["a", x]),
            1, None, b"b", ("b",),
        )
        self.refuse(
            TypeError, "rows: .* write a list of rows", lambda x: gjcut.cut("gmic", ["a"], x),
            "x12", {"x": 1}, {("x", 1, (1,))}, None, 1,
        )
        self.refuse(
            TypeError, r"rows\[0\]: .* write a name, a right side and a list of entries",
            lambda x: gjcut.cut("gmic", ["a"], [x]), "x12", {"x": 1, "y": 2, "z": 3}, None, 1,
        )
        self.refuse(
            ValueError, r"rows\[0\]: .* has \d fields", lambda x: gjcut.cut("gmic", ["a"], [x]),
            ("x", "1/2"), ("x", "1/2", [1], 1), (),
        )
        self.refuse(TypeError, r"rows\[0\]: ", lambda x: row(x, "1/2", [1]), 1, None, b"x")
        self.refuse(
            TypeError, r"rows\[0\], the right side: ", lambda x: row("x", x, [1]), True, 0.5, None
        )
        self.refuse(
            TypeError, r"rows\[0\], the entries: .* write a list of entries",
            lambda x: row("x", "1/2", x), "1", b"1", {"a": 1}, {1}, 1, None,
        )
        self.refuse(
            TypeError, r"rows\[0\], 'a': ", lambda x: row("x", "1/2", [x]), True, 0.5, None, [1]
        )
        self.refuse(
            TypeError, r"rows\[0\], an entry behind the last column: ",
            lambda x: row("x", "1/2", [1, x]), True, 0.5,
        )
        self.refuse(
            ValueError, r"columns\[0\]: ", lambda x: row("x", 0, [1], columns=[x]), "\ud800"
        )
        self.refuse(ValueError, r"rows\[0\]: ", lambda x: row(x, 0, [1]), "\ud800", "x ")

    def test_texts(self):
        self.refuse(TypeError, "words: ", gjcut.call, b"check", None, ["times", "2", "1"])
        for call in (gjcut.by_text, gjcut.check, lambda text: gjcut.call("check", text)):
            self.refuse(
                TypeError, "text: .* write a str, or bytes", call, None, 1, [GMIC], bytearray(9)
            )
            self.refuse(ValueError, "text: ", call, "\ud800")

    @unittest.skipUnless(hasattr(sys, "get_int_max_str_digits"), "each number can be printed")
    def test_numbers_that_cannot_be_printed(self):
        for place, call in (
            ("f", lambda x: gjcut.by_breakpoints(x, [(0, 0)])),
            (r"points\[0\]", lambda x: gjcut.by_breakpoints("1/2", [(0, x)])),
            (r"values\[0\]", lambda x: gjcut.by_values("1/2", [x])),
            (r"words\[0\]", lambda x: gjcut.family("gmic", x)),
            ("n", lambda x: gjcut.times(F, x)),
            ("j", lambda x: gjcut.times(F, 2, x)),
            ("order", lambda x: gjcut.restrict(F, x)),
            (r"rows\[0\]", lambda x: row("x", "1/2", [x])),
            (r"columns\[0\], the upper bound", lambda x: problem(X._replace(upper=x))),
            (r"constraints\[0\], 'x'", lambda x: problem(X, C._replace(entries={"x": x}))),
            (r"multipliers\[0\]", lambda x: problem(X, C, x)),
            ("grid", lambda x: problem(grid=x)),
            ("round", lambda x: problem(round=x)),
        ):
            self.refuse(ValueError, f"{place}: ", call, 10**5000)

    def test_the_calls_of_modules(self):
        for call in (explain.explained, explain.function_of):
            self.refuse(TypeError, "text: ", call, b"gj-proof 1", None, 1)
        self.refuse(
            TypeError, "function is", lambda x: explain.violation_in_words(x, "zero"), GMIC, None
        )
        self.refuse(TypeError, "kind: ", lambda x: explain.violation_in_words(F, x), None, 1)
        self.refuse(
            ValueError, "kind: there is no violation", lambda x: explain.violation_in_words(F, *x),
            ("additive", 0, 0), ("zero", 0), ("negative",), ("superadditive", 0),
        )
        self.refuse(
            TypeError, r"at\[0\]: ",
            lambda x: explain.violation_in_words(F, "negative", x), 0.5, True,
        )
        self.refuse(TypeError, "right: ", lambda x: explain.skipped_in_words(x, "other"), 1)
        self.refuse(ValueError, "why: ", lambda x: explain.skipped_in_words("1/2", x), "wide", "")
        self.refuse(TypeError, "why: ", explain.sum_skipped_in_words, 1, None)
        self.refuse(
            ValueError, "why: there is no", lambda x: explain.sum_skipped_in_words(*x),
            ("free",), ("wide", "x"), ("skip",), ("",),
        )
        for i, argument in enumerate(("words", "text", "answer")):
            given = ["minimal", GMIC, "refused line 1 form"]
            for wrong in (None, b"minimal", 1):
                given[i] = wrong
                self.refuse(TypeError, f"{argument}: ", lambda x: sentences.sentence_for(*x), given)
        self.refuse(TypeError, "text: ", lambda x: sentences.line_at_fault(x, ""), None, b"")
        self.refuse(
            TypeError, "words: ", command_line.main, "minimal", b"minimal", {"minimal": 1}, 1
        )
        self.refuse(TypeError, r"words\[1\]: ", command_line.main, ["demo", 1])


class Right(unittest.TestCase):
    def test_the_words_of_a_column(self):
        # x <= 2/3 and x = 1/2 is feasible. A quarter of the constraint is 3/4 x + 1/4 s = 1/2, and
        # its cut with both continuous is 3/2 x + 1/2 s >= 1, which says 0 >= 0. With both whole it
        # is 1/2 x + 1/2 s >= 1, or -x >= 0.
        c = Constraint("c", {"x": 3}, "<=", 2)
        for kinds, numbers_of_cut in (
            ((False, "continuous", Word("continuous")), ({}, 0)),
            ((True, "whole", Word("whole")), ({"x": -1}, 0)),
        ):
            for kind in kinds:
                cut = safe_cut([Column("x", kind, 0, None)], [c], [0.25])
                self.assertEqual(cut[:2], numbers_of_cut)
                self.assertEqual(safe_cut([("x", kind, 0, None)], [list(c)], [0.25]), cut)
        self.assertEqual(Column(name="x", is_whole="whole", lower=0, upper=None).is_whole, "whole")

    def test_iterables(self):
        expected = gjcut.cut("gmic", ["a", "b"], [("x", "1/2", ["1/3", 2])])
        entries = {"a": "1/3", "b": 2}
        self.assertEqual(
            gjcut.cut("gmic", entries.keys(), [("x", "1/2", entries.values())]), expected
        )
        made = (iter(["x", "1/2", iter(each)]) for each in [["1/3", 2]])
        self.assertEqual(gjcut.cut("gmic", iter("ab"), made), expected)
        function = gjcut.by_text(GMIC)
        self.assertEqual(
            gjcut.by_breakpoints("3/5", (iter(p) for p in [(0, 0), ("3/5", 1)])), function
        )
        self.assertEqual(gjcut.by_breakpoints("3/5", function), function)
        self.assertEqual(
            gjcut.by_values("1/2", (x for x in (0, (1, 1, 1)))), gjcut.family("gmic", "1/2")
        )
        x, entries = X._replace(upper=5), C._replace(entries=MappingProxyType({"x": 1}))
        expected = problem(x, at_upper=["x"])
        for names in ({"x"}, frozenset("x"), {"x": 1}.keys(), (x for x in "x"), ("x",)):
            found = safe_cut(iter([x]), (c for c in [entries]), iter([1]), at_upper=names)
            self.assertEqual(found, expected)

    def test_numbers_of_other_packages(self):
        gmic = gjcut.family("gmic", "3/5")
        self.assertEqual((gmic * Short(200) * Short(200)).at("3/5"), 40_000)
        self.assertEqual(gjcut.by_breakpoints("3/5", [(Short(0), 0), ("3/5", Short(1))]), gmic)
        self.assertEqual(gjcut.times(gmic, Short(2), Short(1)), gjcut.times(gmic, 2, 1))
        self.assertEqual(problem(grid=Short(4)), problem(grid=4))
        self.assertEqual(problem(round=Short(4)), problem(round=4))

    def test_names_are_their_characters(self):
        x, name = Word("x"), Column(Word("x"), True, 0, None)
        self.assertEqual(
            problem(name, Constraint(x, {x: 1}, Word("<="), "7/2"), 1, at_upper=[x]), problem()
        )
        self.assertEqual(row(x, "1/2", ["1/3"], columns=[Word("a")]), row("x", "1/2", ["1/3"]))

    def test_the_place_of_a_number_in_words(self):
        for call, place in (
            (lambda: gjcut.times(F, 0), "n"),
            (lambda: gjcut.times(F, 501), "n"),
            (lambda: gjcut.times(F, 2, 2), "j"),
            (lambda: gjcut.times(F, 2, -1), "j"),
            (lambda: gjcut.restrict(F, 1), "order"),
        ):
            with self.assertRaises(gjcut.Refused) as caught:
                call()
            self.assertEqual(
                (caught.exception.status, caught.exception.place), (2, gjcut.Place(place))
            )
            said = f"{place}: words refused: this is no command, or a number is missing or outside"
            self.assertTrue(str(caught.exception).startswith(said))


if __name__ == "__main__":
    unittest.main()
