"""Cuts of mixed-integer programs: by hand, and against every feasible point of small ones."""
import functools
import itertools
import pickle
import random
import unittest
from decimal import Decimal
from fractions import Fraction

import gjcut
from gjcut import Column, Constraint, safe_cut, safe_cuts
from gjcut import _problems
from gjcut._problems import BITS, MOST_ROUND, ROUND

exact_cut = functools.partial(safe_cut, round=None)

X, Y, Z = Column("x", True, 0, None), Column("y", True, 0, None), Column("z", False, 0, None)
# The program of docs/solver.md: 2x + y <= 7 and x + 3y - z <= 9.
FIRST = Constraint("first", {"x": 2, "y": 1}, "<=", 7)
SECOND = Constraint("second", {"x": 1, "y": 3, "z": -1}, "<=", 9)
PROGRAM = [X, Y, Z], [FIRST, SECOND]
ONE = [X], [Constraint("c", {"x": 1}, "<=", "7/2")]


def fractions(*texts):
    return [Fraction(text) for text in texts]


def near(value, power):
    """The nearest multiple of 1 over 2 to this power."""
    return Fraction(round(Fraction(value) * Fraction(2) ** power)) / Fraction(2) ** power


def numbers_of(cut, *names):
    return [*(cut.entries.get(name, 0) for name in names), cut.right]


class ByHand(unittest.TestCase):
    """The row of x is x + 3/5 s1 - 1/5 s2 + 1/5 z = 12/5, that of y is y - 1/5 s1 + 2/5 s2 - 2/5 z
    = 11/5; s1 = 7 - 2x - y is whole, and s2 = 9 - x - 3y + z is not."""

    def test_the_cuts_of_the_two_rows(self):
        # 2/3 s1 + 1/3 s2 + 1/2 z >= 1, and 1/4 s1 + 2 s2 + 1/2 z >= 1.
        cut = exact_cut(*PROGRAM, ["3/5", Decimal("-0.2")])
        self.assertEqual(numbers_of(cut, *"xyz"), fractions("-5/3", "-5/3", "5/6", "-20/3"))
        self.assertIsNone(cut.skipped)
        self.assertEqual(cut.text.splitlines()[0], "gj-safe 1")
        cut = exact_cut(*PROGRAM, ["-1/5", Fraction(2, 5)])
        self.assertEqual(numbers_of(cut, *"xyz"), fractions("-5/2", "-25/4", "5/2", "-75/4"))

    def test_a_rounded_cut(self):
        # All columns have the bound 0 below, so coefficients go up to multiples of 1/4, and the
        # right side, -80/12, goes down to -81/12.
        cut = exact_cut(*PROGRAM, ["3/5", "-1/5"], grid=4)
        self.assertEqual(numbers_of(cut, *"xyz"), fractions("-3/2", "-3/2", 1, "-27/4"))

    def test_upper_bounds(self):
        # 3x + 4y <= 16, x <= 3. With x' = 3 - x the row of y is y - 3/4 x' + 1/4 s = 7/4. Its cut
        # is 1/3 x' + 1/3 s >= 1. With x at 0 the right side is 4.
        problem = [X._replace(upper="7/2"), Y], [Constraint("c", {"x": 3, "y": 4}, "<=", 16)]
        cut = exact_cut(*problem, ["1/4"], at_upper=["x"])
        self.assertEqual(numbers_of(cut, *"xy"), fractions("-4/3", "-4/3", "-16/3"))
        cut = exact_cut(*problem, ["1/4"])
        self.assertEqual((cut.entries, cut.right, cut.skipped), ({}, None, "integral"))

    def test_a_constraint_with_fractions(self):
        # x <= 7/2: its slack is whole after it is doubled, s = 7 - 2x, and 1/2 s + whole = 7/2; the
        # cut is s >= 1.
        self.assertEqual(numbers_of(exact_cut(*ONE, [1]), "x"), [-2, -6])

    def test_what_is_skipped(self):
        free = [X, Z._replace(lower=None)], [Constraint("c", {"x": "1/2", "z": 1}, ">=", "1/3")]
        self.assertEqual(exact_cut(*free, [1]).skipped, "free z")
        self.assertEqual(exact_cut(*ONE, [2]).skipped, "integral")
        self.assertEqual(exact_cut(*ONE, [0.0]).skipped, "integral")
        # The two denominators have no common divisor, and their product has 160 bits.
        wide = [X], [Constraint("c", {"x": Fraction(1, 2**80)}, "<=", Fraction(1, 3**51))]
        self.assertEqual(exact_cut(*wide, [1]).skipped, "wide")

    def test_no_point_at_all(self):
        # 2x = 1 has no solution in whole numbers, and the row 1/2 has no column.
        cut = exact_cut([X], [Constraint("c", {"x": 2}, "=", 1)], ["1/2"])
        self.assertEqual((cut.entries, cut.right), ({}, 1))


class ByAFunction(unittest.TestCase):
    def test_the_mixed_integer_cut_as_a_function(self):
        # The rows have the fractional parts 2/5 and 1/5.
        gmic = gjcut.by_breakpoints("2/5", [(0, 0), ("2/5", 1)])
        cut = exact_cut(*PROGRAM, ["3/5", "-1/5"], rule=gmic, grid=4)
        self.assertEqual(cut[:3], exact_cut(*PROGRAM, ["3/5", "-1/5"], grid=4)[:3])
        self.assertEqual(exact_cut(*PROGRAM, ["-1/5", "2/5"], rule=gmic).skipped, "other")

    def test_functions_that_do_not_serve(self):
        low = gjcut.by_breakpoints("3/5", [(0, 0), ("3/5", "9/10")])
        for function, status in ((low, 9), (gjcut.family("half", "1/2"), 8)):
            with self.assertRaises(gjcut.Refused) as caught:
                exact_cut(*ONE, [1], rule=function)
            self.assertEqual(caught.exception.status, status)
            self.assertIn("the function in front", caught.exception.advice)


class Floats(unittest.TestCase):
    def test_a_float_is_taken_over_a_power_of_two(self):
        # The greatest entry is 0.6 times 2. Of 1.2/2**40 the greatest powers of 2 are that times 2
        # is at most it 1/2**41, and that times 3, which is the greatest entry of the second, 1/2**42.
        exact = [near(0.6, 41), near(-0.2, 42)]
        for cut_of in (safe_cut, exact_cut):
            cut = cut_of(*PROGRAM, [0.6, -0.2])
            self.assertEqual(cut, cut_of(*PROGRAM, exact))
        self.assertNotEqual(cut, exact_cut(*PROGRAM, ["3/5", "-1/5"]))

    def test_and_over_a_lesser_one_where_a_number_is_too_wide(self):
        source, taken = random.Random(3), set()
        for most in (10, 100, 300) * 4:
            columns = [Column(f"x{j}", True, 0, None) for j in range(5)]
            rows = []
            for i in range(5):
                parts = [(source.randint(1, 10**4), source.randint(1, most)) for _ in range(6)]
                values = [Fraction(*part) for part in parts]
                entries = {column.name: value for column, value in zip(columns, values)}
                rows.append(Constraint(f"c{i}", entries, "<=", values[5]))
            floats = [source.uniform(-1, 1) for _ in rows]
            found = exact_cut(columns, rows, floats)
            self.assertNotEqual(safe_cut(columns, rows, floats).skipped, "wide")
            for bits in BITS:
                cut = exact_cut(columns, rows, floats, bits=bits)
                if cut.skipped != "wide":
                    taken.add(bits)
                    break
            self.assertEqual(found, cut)
        self.assertEqual(taken, set(BITS))

    def test_of_any_size(self):
        self.assertEqual(safe_cut(*ONE, [1e30]).skipped, "integral")
        self.assertEqual(safe_cut(*ONE, [1e300]).skipped, "wide")
        self.assertEqual(safe_cut(*ONE, [5e-324]).skipped, "integral")

    def test_no_number(self):
        for given in (float("nan"), float("inf")):
            with self.assertRaisesRegex(ValueError, r"multipliers\[1\]: (nan|inf) is no number"):
                safe_cut(*PROGRAM, [1.0, given])

    def test_data_are_exact(self):
        x = X._replace(upper=0.5)
        c = Constraint("c", {"x": 1}, "<=", 1)
        for columns, constraint, place in (
            ([x], c, r"columns\[0\], the upper bound"),
            ([X], c._replace(right=0.5), r"constraints\[0\], the right side"),
            ([X], c._replace(entries={"x": 1.0}), r"constraints\[0\], 'x'"),
        ):
            with self.assertRaisesRegex(TypeError, f"{place}: .* is a float: write an int, a Frac"):
                safe_cut(columns, [constraint], [1])
        with self.assertRaises(TypeError):
            safe_cut(*ONE, [1], grid=4.0)


class Bits(unittest.TestCase):
    """How many bits of the greatest entry that floats make are kept."""

    def assert_taken(self, floats, exact, constraints, **words):
        columns = [X, Y, Z]
        cut = exact_cut(columns, constraints, floats, **words)
        self.assertEqual(cut, exact_cut(columns, constraints, fractions(*exact)))
        self.assertNotEqual(cut.skipped, "wide")

    def test_by_hand(self):
        # The greatest entries are 4 and 3, so the multipliers make 1.2 and 2.1. An eighth of 2.1 is
        # 0.2625: 4/16 and 3/16 are at most that, and 4/8 and 3/8 are not.
        rows = [Constraint("c", {"x": 4, "y": -1}, "<=", 7), Constraint("d", {"x": -3}, ">=", -9)]
        self.assert_taken([0.3, 0.7], ["5/16", "11/16"], rows, bits=3)
        # 2.1/32 is 0.065625, and 4/64 and 3/64 are below it.
        self.assert_taken([0.3, 0.7], ["19/64", "45/64"], rows, bits=5)
        # A half of 2.1 is 1.05, and 4/4 and 3/4 are below it.
        self.assert_taken([0.3, 0.7], ["1/4", "3/4"], rows, bits=1)

    def test_one_constraint_alone(self):
        # 0.1 makes 0.3. A 16th of that is 0.01875, and 3/256 is below it.
        row = Constraint("c", {"x": 3, "y": "-5/2", "z": Decimal("0.5")}, "<=", 4)
        self.assert_taken([0.1], ["26/256"], [row], bits=4)
        # With a thousandth, and 1000 times the entries: 3000/2**18 is below 0.01875.
        row = Constraint("c", {"x": 3000, "y": -2500, "z": Fraction(500)}, "<=", 4000)
        self.assert_taken([0.0001], ["26/262144"], [row], bits=4)

    def test_exact_multipliers_stay(self):
        rows = [Constraint("c", {"x": 4}, "<=", 7), Constraint("d", {"y": 3}, "<=", 9)]
        # 100 makes 300. A quarter of that is 75, and 16 times 4 is 64.
        self.assert_taken([30.0, 100], ["32", "100"], rows, bits=2)
        # 30 makes 120. A quarter of that is 30, and 4 times 4 is 16.
        self.assert_taken([30.0, "1/3"], ["32", "1/3"], rows, bits=2)
        self.assert_taken(["2/7", "1/3"], ["2/7", "1/3"], rows, bits=1)

    def test_what_makes_no_entry(self):
        # A constraint whose entries are 0 counts as one with the entry 1: 0.7 and 20. A half of 20
        # is 10: 8 times 1, and 100/16.
        for entries in ({}, {"x": 0}):
            c, d = Constraint("c", entries, "<=", 7), Constraint("d", {"y": 100}, "<=", 9)
            self.assert_taken([0.7, 0.2], ["0", "3/16"], [c, d], bits=1)
            self.assert_taken([0.7, 0.0], ["3/4", "0"], [c, d], bits=1)
            self.assert_taken([0.0, 0.0], ["0", "0"], [c, d], bits=1)

    def test_coefficients_of_four_million(self):
        # By 1/4,000,000 the row is x + 3/4 y + 1/4,000,000 s = 5/2, and s is whole. Its cut, 1/2 y +
        # 1/2,000,000 s >= 1, is 2 x + y <= 4.
        problem = [X, Y], [Constraint("c", {"x": 4 * 10**6, "y": 3 * 10**6}, "<=", 10**7)]
        cut = exact_cut(*problem, ["1/4000000"])
        self.assertEqual(numbers_of(cut, "x", "y"), [-2, -1, -4])
        # Over 2**20 the multiplier is 0, or 1 part: 15625/4096 x + 46875/16384 y + 1/2**20 s =
        # 78125/8192, with f = 4397/8192. The cut is 2/5 x + 3/10 y + 1/562816 s >= 1, and that is
        # 36864/21985 times 4 x + 3 y <= 10, the constraint itself.
        self.assertEqual(exact_cut(*problem, [near(2.5e-7, 20)]).skipped, "integral")
        cut = exact_cut(*problem, ["1/1048576"])
        wanted = [Fraction(-36864, 21985) * each for each in (4, 3, 10)]
        self.assertEqual(numbers_of(cut, "x", "y"), wanted)
        # 20 bits of the entry, which is 1, are multiples of 1/2**42.
        self.assertEqual(near(2.5e-7, 42), Fraction(1_099_512, 2**42))
        cut = exact_cut(*problem, [2.5e-7], bits=20)
        self.assertEqual(cut, exact_cut(*problem, [near(2.5e-7, 42)]))
        for found, wanted in zip(numbers_of(cut, "x", "y"), (-2, -1, -4)):
            self.assertLess(abs(found - wanted), 1e-5)
        # With `round` the entry of s is small, so s / 2**20 is a continuous column with the entry
        # 2**20/4,000,000. That is 274877.9 parts of 1/2**20, and goes up to 274878. What the row grows
        # by has the entry -1, so 2, and is s / 2**20 times how far it went up. The cut is
        # 1/2 y + w s >= 1 with w as here.
        w = Fraction(2 * 274878, 2**40) + 2 * (Fraction(274878, 2**40) - Fraction(1, 4 * 10**6))
        cut = safe_cut(*problem, ["1/4000000"])
        wanted = [-4 * 10**6 * w, Fraction(1, 2) - 3 * 10**6 * w, 1 - 10**7 * w]
        self.assertEqual(numbers_of(cut, "x", "y"), wanted)
        # Divided by what its numbers have in common, s has the entry 1/4, and nothing is rounded.
        problem = [X, Y], [Constraint("c", {"x": 4, "y": 3}, "<=", 10)]
        self.assertEqual(numbers_of(safe_cut(*problem, [0.25]), "x", "y"), [-2, -1, -4])

    def test_of_another_type(self):
        for wrong in (2.0, "4", True, Fraction(4), [4]):
            with self.assertRaisesRegex(TypeError, "^bits: .* write an int from 1 to 64, or None"):
                safe_cut(*ONE, [0.5], bits=wrong)
        for wrong in (0, -1, 65, 10**400):
            with self.assertRaisesRegex(ValueError, "^bits: .* is not from 1 to 64: write such an"):
                safe_cut(*ONE, [1], bits=wrong)
        for bits in (1, 64, None):
            self.assertIsInstance(safe_cut(*PROGRAM, [0.6, -0.2], bits=bits), gjcut.SafeCut)


class Rounds(unittest.TestCase):
    """All numbers on the way are multiples of one over `round`."""

    def test_a_constraint_off_the_grid(self):
        # Over 4, with x >= 2: in -4/3 x - 5/4 y >= -7/2 the first entry goes up by 1/12, so the
        # right side by 2/12, to -10/3, and then down to -7/2. The example of docs/solver.md.
        columns = [X._replace(lower=2), Y]
        c = Constraint("c", {"x": "4/3", "y": "5/4"}, "<=", "7/2")
        cut = safe_cut(columns, [c], ["2/3"], round=4)
        self.assertEqual(numbers_of(cut, "x", "y"), [-3, -3, -8])

    def test_it_is_2_to_the_20_by_default(self):
        cut = safe_cut(*PROGRAM, [0.6, -0.2], grid=2**20)
        self.assertEqual(cut, safe_cut(*PROGRAM, [0.6, -0.2], grid=2**20, round=ROUND))
        self.assertEqual(ROUND, 2**20)
        exact = exact_cut(*PROGRAM, ["3/5", "-1/5"])
        for near, value in zip(numbers_of(cut, *"xyz"), numbers_of(exact, *"xyz")):
            self.assertLess(abs(near - value), Fraction(1, 2**15))

    def test_data_of_many_digits(self):
        wide = [X], [Constraint("c", {"x": Fraction(1, 2**80)}, "<=", Fraction(1, 3**51))]
        self.assertEqual(exact_cut(*wide, [1]).skipped, "wide")
        self.assertNotEqual(safe_cut(*wide, [1]).skipped, "wide")

    def test_what_it_may_be(self):
        for parts in (1, ROUND, MOST_ROUND, None):
            self.assertIsInstance(safe_cut(*PROGRAM, ["3/7", "-1/7"], round=parts), gjcut.SafeCut)
        for wrong in (2.0, "4", True, Fraction(4), [4]):
            with self.assertRaisesRegex(TypeError, "^round: .* write an int from 1 to 2147483647, "):
                safe_cut(*ONE, [1], round=wrong)
        for wrong in (0, -1, 2**31, 10**400):
            with self.assertRaisesRegex(ValueError, "^round: "):
                safe_cut(*ONE, [1], round=wrong)


class ManySums(unittest.TestCase):
    """The cuts of many sums are those of each alone."""

    SUMS = [["3/5", "-1/5"], [1, 0], [0.6, -0.2], ["-1/5", Decimal("0.4")], [1e300, 1], [0.6, -0.2]]

    def assert_each_alone(self, problem, sums, **words):
        alone = [safe_cut(*problem, each, **words) for each in sums]
        self.assertEqual(safe_cuts(*problem, sums, **words), alone)

    def test_by_hand(self):
        first, second = safe_cuts(*PROGRAM, [["3/5", "-1/5"], ["-1/5", "2/5"]], round=None)
        self.assertEqual(numbers_of(first, *"xyz"), fractions("-5/3", "-5/3", "5/6", "-20/3"))
        self.assertEqual(numbers_of(second, *"xyz"), fractions("-5/2", "-25/4", "5/2", "-75/4"))

    def test_each_alone(self):
        self.assertEqual(safe_cuts(*PROGRAM, []), [])
        for words in ({}, {"round": None}, {"grid": 4, "at_upper": ["x"]}, {"bits": 7}):
            self.assert_each_alone(PROGRAM, self.SUMS, **words)
        self.assert_each_alone(PROGRAM, self.SUMS, rule=gjcut.family("gmic", "2/5"))

    def test_bits_of_each(self):
        # With 40 bits the first is too wide, and with 30 it is not. The second is exact.
        problem = [X], [Constraint("c", {"x": Fraction(7, 3**60)}, "<=", Fraction(7, 2))]
        self.assertEqual(exact_cut(*problem, [0.7], bits=40).skipped, "wide")
        self.assertIsNone(exact_cut(*problem, [0.7]).skipped)
        self.assert_each_alone(problem, [[0.7], [1]], round=None)

    def test_sums_that_do_not_fit_into_one_text(self):
        for name, most in (("MOST_BYTES", 300), ("MOST_STEPS", 40), ("MOST_STEPS", 1)):
            kept = getattr(_problems, name)
            setattr(_problems, name, most)
            try:
                self.assert_each_alone(PROGRAM, self.SUMS)
            finally:
                setattr(_problems, name, kept)

    def test_places(self):
        wide = Fraction(1, 2**127)
        for sums, place in (
            ([[1, 1], [1]], "multipliers[1]"),
            ([[1, 1], [1, wide]], "multipliers[1], multiplier 1"),
        ):
            with self.assertRaises(gjcut.Refused) as caught:
                safe_cuts(*PROGRAM, sums)
            self.assertEqual(str(caught.exception.place), place)
        for sums, error, said in (
            (7, TypeError, "^multipliers: .* write a list of lists of numbers"),
            ([[1, 1], 7], TypeError, r"^multipliers\[1\]: .* write a list of numbers"),
            ([[1, 1], "11"], TypeError, r"^multipliers\[1\]: .* write a list of numbers"),
            ([[1, True]], TypeError, r"^multipliers\[0\], multiplier 1: True is a bool"),
            ([[1, float("nan")]], ValueError, r"^multipliers\[0\], multiplier 1: nan is no number"),
            ([["x", 1]], ValueError, r"^multipliers\[0\], multiplier 0: 'x' is no fraction"),
            ([[1, 10**5000]], ValueError, r"^multipliers\[0\], multiplier 1: "),
        ):
            with self.assertRaisesRegex(error, said):
                safe_cuts(*PROGRAM, sums)


class Refusals(unittest.TestCase):
    def refused(self, *arguments, **words):
        with self.assertRaises(gjcut.Refused) as caught:
            safe_cut(*arguments, **words)
        refused = pickle.loads(pickle.dumps(caught.exception))
        self.assertEqual((refused.status, str(refused)), (3, str(caught.exception)))
        self.assertIn(refused.advice, str(refused))
        return str(refused.place), refused.reason

    def test_places(self):
        c, wide = ONE[1][0], 2**127
        many = [X._replace(name=f"x{i}") for i in range(10_001)]
        for problem, place, reason in (
            (([X, Y, X], [c], [1]), "columns[2]", "place"),
            (([X], [c, FIRST], [1, 1]), "constraints[1], 'y'", "place"),
            (([X], [c], [1, 1]), "multipliers", "form"),
            (([X], [c], [1, "1/2"]), "multipliers", "form"),
            (([X, Y._replace(upper=wide)], [c], [1]), "columns[1], the upper bound", "number"),
            (([X], [c._replace(right=-wide)], [1]), "constraints[0], the right side", "number"),
            (([X], [c._replace(entries={"x": wide})], [1]), "constraints[0], 'x'", "number"),
            (([X], [c, c], [1, Fraction(1, wide)]), "multipliers[1]", "number"),
            ((many, [], []), "columns[10000]", "large"),
        ):
            self.assertEqual(self.refused(*problem), (place, reason))
        self.assertEqual(self.refused(*ONE, [1], at_upper=["x", "y"]), ("at_upper[1]", "place"))
        self.assertEqual(self.refused(*ONE, [1], grid=0), ("grid", "number"))
        self.assertEqual(self.refused(*ONE, [1], grid=2**32), ("grid", "number"))

    def test_names_that_cannot_stand_in_a_text(self):
        c = ONE[1][0]
        for name in ("", "a b", 'a"', "a\n", "a\nend", "\xe4", "a" * 256, "\0"):
            for columns, constraints, upper, place in (
                ([X._replace(name=name)], [], [], r"columns\[0\]"),
                ([X], [c._replace(name=name)], [], r"constraints\[0\]"),
                ([X], [c._replace(entries={name: 1})], [], r"constraints\[0\], "),
                ([X], [], [name], r"at_upper\[0\]"),
            ):
                with self.assertRaisesRegex(ValueError, f"^{place}.*: the name .* cannot stand"):
                    safe_cut(columns, constraints, [1] * len(constraints), at_upper=upper)

    def test_names_that_can(self):
        for name in ("-", "end", "#", "sum", "a" * 255, "x[1,2]", "0"):
            c = Constraint(name, {name: 1}, "<=", "7/2")
            cut = safe_cut([X._replace(name=name)], [c], [1], at_upper=[name])
            self.assertEqual(numbers_of(cut, name), [-2, -6])

    def test_no_such_sense_or_rule(self):
        c = ONE[1][0]._replace(sense="==")
        with self.assertRaisesRegex(ValueError, r"constraints\[0\]: the sense '==' is none of"):
            safe_cut([X], [c], [1])
        with self.assertRaisesRegex(ValueError, "there is no rule 'gmi'"):
            safe_cut(*ONE, [1], rule="gmi")


SENSES = {"<=": (-1,), ">=": (1,), "=": (-1, 1)}


def some(source, size):
    """A number that is whole, or a fraction with a small denominator."""
    return Fraction(source.randint(-size, size), source.choice((1, 1, 1, 2, 3, 5)))


def multiplier(source):
    return source.choice((0, some(source, 3), source.uniform(-1, 1), source.gauss(0, 1e-9), 1 / 3))


class Program:
    """A small program: whole columns in a box, and at most one continuous column, which can lack
    bounds."""

    def __init__(self, source):
        self.columns = []
        for j in range(source.randint(1, 3)):
            lower = some(source, 4)
            self.columns.append(Column(f"x{j}", True, lower, lower + source.randint(0, 4)))
        whole = len(self.columns)
        if source.random() < 0.6:
            bounds = [None if source.random() < 0.3 else some(source, 3) for _ in range(2)]
            if None not in bounds:
                bounds.sort()
            self.columns.insert(source.randint(0, whole), Column("z", False, *bounds))
        names, self.constraints = [column.name for column in self.columns], []
        for i in range(source.randint(1, 3)):
            entries = {name: some(source, 5) for name in names if source.random() < 0.8}
            sense = source.choice(("<=", "<=", ">=", ">=", "="))
            self.constraints.append(Constraint(f"c{i}", entries, sense, some(source, 9)))

    def ends(self, point):
        """The least and the greatest z with which the point of the whole columns is feasible, and
        None where there is none; nothing if there is no such z."""
        least, greatest = next((c[2:] for c in self.columns if not c.is_whole), (0, 0))
        for constraint in self.constraints:
            slope = constraint.entries.get("z", 0)
            rest = sum(constraint.entries.get(name, 0) * value for name, value in point.items())
            for sign in SENSES[constraint.sense]:
                # sign * (slope * z + rest - right) is at least 0.
                gap, rise = sign * (constraint.right - rest), sign * slope
                if rise == 0 and gap > 0:
                    return None
                if rise > 0:
                    least = gap / rise if least is None else max(least, gap / rise)
                if rise < 0:
                    greatest = gap / rise if greatest is None else min(greatest, gap / rise)
        return None if None not in (least, greatest) and least > greatest else (least, greatest)

    def points(self):
        whole = [column for column in self.columns if column.is_whole]
        ranges = [range(-(-c.lower // 1), c.upper // 1 + 1) for c in whole]
        for values in itertools.product(*ranges):
            point = dict(zip([column.name for column in whole], values))
            ends = self.ends(point)
            if ends:
                yield point, ends


class BruteForce(unittest.TestCase):
    def test_no_cut_removes_a_feasible_point(self):
        source, cuts, tried = random.Random(50), 0, 0
        for _ in range(1000):
            program = Program(source)
            given = [multiplier(source) for _ in program.constraints]
            upper = [column.name for column in program.columns if source.random() < 0.5]
            grid = source.choice((None, 1, 4, 10, 2**20))
            parts = source.choice((None, None, None, 3, 10, 2**20, 2**20))
            cut = safe_cut(
                program.columns, program.constraints, given, at_upper=upper, grid=grid, round=parts
            )
            if cut.skipped:
                self.assertIn(cut.skipped, ("integral", "free z"))
                continue
            cuts += 1
            if grid:
                on_grid = [n * grid for n in numbers_of(cut, *cut.entries)]
                self.assertTrue(all(n.denominator == 1 for n in on_grid))
            for point, ends in program.points():
                tried += 1
                rest = sum(cut.entries.get(name, 0) * value for name, value in point.items())
                slope = cut.entries.get("z", 0)
                # The cut asks something of z at one end alone, where there is no end of nothing.
                end = ends[0] if slope > 0 else ends[1]
                self.assertTrue(slope == 0 or end is not None)
                self.assertGreaterEqual(rest + slope * (end if slope else 0), cut.right)
        self.assertGreater(cuts, 200)
        self.assertGreater(tried, 1000)


if __name__ == "__main__":
    unittest.main()
