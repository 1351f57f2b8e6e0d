"""Functions of the literature: what the program says of members in the range and outside of it, and
that families which say one thing in two ways agree.

The verdicts in the range are those of the sources. Those outside come from a plain program by the
definitions, which shares nothing with the library.
"""
import inspect
import itertools
import pickle
import unittest
from fractions import Fraction
from pathlib import Path

import gjcut
from gjcut import literature
from gjcut.literature import FAMILIES, OutOfRange

EXAMPLES = Path(__file__).resolve().parents[2] / "examples/literature"
# More members in the range, beside the example of each family.
INSIDE = {
    "gmic": [("1/2",), ("5/7",), ("1/97",)],
    "gj_2_slope": [("3/5", "1/3"), ("2/3", 1), ("1/10", "1/10")],
    "gj_forward_3_slope": [("4/5", "1/2", 1), ("2/3", "1/3", "1/5"), ("1/2", "1/4", 0)],
    "drlm_backward_3_slope": [("1/10", "1/5"), ("1/7", "3/14"), ("1/4", "3/10")],
    "dg_2_step_mir": [("4/5", "2/7"), ("7/10", "1/4"), ("1/2", "1/5")],
    "kf_n_step_mir": [("4/5", (1, "3/10")), ("4/5", (1, "3/10", "3/40"))],
    "psi_n_in_bccz_counterexample_construction": [
        ("1/2", ("1/8",)), ("3/4", ("1/8", "1/8", "1/24")),
    ],
    "bcdsp_arbitrary_slope": [("1/3", 2), ("2/5", 3), ("1/7", 3)],
    "mlr_cpl3_b_3_slope": [("1/10", "1/20"), ("1/15", "1/10")],
    "mlr_cpl3_c_3_slope": [("1/10", "1/8"), ("1/12", "1/6")],
    "mlr_cpl3_d_3_slope": [("1/5", "1/10"), ("1/10", "1/20")],
    "mlr_cpl3_g_3_slope": [("1/10", "1/5"), ("1/20", "9/40")],
    "mlr_cpl3_l_2_slope": [("1/3", "1/6"), ("3/10", "3/20")],
    "mlr_cpl3_n_3_slope": [("1/2", "1/16"), ("1/5", "1/12")],
    "kzh_3_slope_param_extreme_2": [("3/5", "2/5", "1/5"), ("1/2", "3/8", "1/4")],
    "k_cut": [("2/5", 1), ("1/3", 4), ("3/7", 5)],
    "two_slope": [(2, "++-"), (3, "+++--")],
    "ll_strong_fractional": [("1/2",), ("3/5",), ("9/10",)],
    "dg_2_step_mir_limit": [("1/2", 1), ("2/3", 2), ("4/5", 4)],
    "drlm_2_slope_limit": [
        ("3/5", 1, 1), ("1/3", 1, 2), ("2/3", 1, 1), ("1/2", 2, 2), ("2/3", 2, 1), ("3/4", 3, 1),
    ],
    "drlm_3_slope_limit": [("1/10",), ("2/7",)],
    "rlm_dpl1_extreme_3a": [("1/10",), ("3/10",)],
    "half": [("1/3",)],
    "gomory_fractional": [("1/3",)],
}
# Members outside, and what a plain program says of them. The range need not be all there is.
OUTSIDE = [
    ("gj_2_slope", ("1/2", "6/5"), "refused"),
    ("gj_forward_3_slope", ("4/7", 1, "1/2"), "extreme"),
    ("drlm_backward_3_slope", ("1/12", "1/3"), "not-extreme"),
    ("drlm_backward_3_slope", ("1/7", "2/7"), "extreme"),
    ("dg_2_step_mir", ("9/10", "2/5"), "not-minimal"),
    ("bcdsp_arbitrary_slope", ("3/5", 3), "extreme"),
    ("bcdsp_arbitrary_slope", ("2/3", 3), "extreme"),
    ("psi_n_in_bccz_counterexample_construction", ("23/24", ("5/24", "5/24")), "not-minimal"),
    ("mlr_cpl3_g_3_slope", ("1/6", "1/6"), "extreme"),
    ("mlr_cpl3_l_2_slope", ("2/7", "1/7"), "extreme"),
    ("mlr_cpl3_n_3_slope", ("1/5", "1/10"), "extreme"),
    ("kzh_3_slope_param_extreme_2", ("5/7", "4/7", "3/14"), "extreme"),
    ("two_slope", (1, "++-+"), "not-minimal"),
    ("ll_strong_fractional", ("2/5",), "not-minimal"),
    ("dg_2_step_mir_limit", ("2/3", 1), "not-minimal"),
    ("dg_2_step_mir_limit", ("3/4", 2), "not-minimal"),
    ("drlm_2_slope_limit", ("1/3", 1, 1), "not-minimal"),
    ("drlm_2_slope_limit", ("1/2", 2, 1), "not-minimal"),
    ("drlm_3_slope_limit", ("1/3",), "extreme"),
    ("drlm_3_slope_limit", ("2/5",), "not-extreme"),
    ("rlm_dpl1_extreme_3a", ("1/3",), "not-extreme"),
]


def fractions(most):
    """The fractions between 0 and 1 with denominators up to this one."""
    return sorted({Fraction(k, q) for q in range(2, most + 1) for k in range(1, q)})


def pairs(most, first=1, second=1):
    """Pairs of multiples of 1/most that add up, each times its factor, to less than 1."""
    multiples = range(1, most)
    for i, j in itertools.product(multiples, repeat=2):
        if first * i + second * j < most:
            yield Fraction(i, most), Fraction(j, most)


# All members with small numbers of families for which the verdicts outside of the range are known
# too: there a member is as in the range exactly if its parameters are so.
GRIDS = {
    "gj_2_slope": (itertools.product(fractions(6), fractions(5) + [1, 2]), None),
    "drlm_backward_3_slope": (
        ((f, b) for f, b in itertools.combinations(fractions(13), 2) if 2 * b < 1 + f),
        lambda f, bkpt: 4 * bkpt == 1 + f,
    ),
    "dg_2_step_mir": (((f, a) for a, f in itertools.combinations(fractions(8), 2)), None),
    "mlr_cpl3_b_3_slope": (pairs(26, 1, 4), None),
    "mlr_cpl3_c_3_slope": (pairs(23, 1, 4), None),
    "mlr_cpl3_d_3_slope": (((2 * z, z) for z in fractions(30) if 6 * z < 1), None),
    "mlr_cpl3_g_3_slope": (
        (((1 - 4 * z) / 2, z) for z in fractions(32) if 4 * z < 1), lambda r0, z1: r0 == z1,
    ),
    "mlr_cpl3_l_2_slope": (
        ((2 * z, z) for z in fractions(30) if 6 * z <= 1), lambda r0, z1: 7 * z1 == 1,
    ),
    "mlr_cpl3_n_3_slope": (
        pairs(24, 1, 4), lambda r0, z1: r0 == 2 * z1 and r0 + 8 * z1 <= 1,
    ),
    "ll_strong_fractional": (((f,) for f in fractions(12)), None),
    "dg_2_step_mir_limit": (itertools.product(fractions(7), range(1, 6)), None),
    "drlm_2_slope_limit": (itertools.product(fractions(5), range(1, 5), range(1, 5)), None),
    "drlm_3_slope_limit": (((f,) for f in fractions(15)), lambda f: 3 * f == 1),
    "rlm_dpl1_extreme_3a": (((f,) for f in fractions(15)), None),
}


class Families(unittest.TestCase):
    def test_members_in_the_range(self):
        self.assertGreaterEqual(len(FAMILIES), 25)
        self.assertLessEqual(set(INSIDE), set(FAMILIES))
        jumping = 0
        for name, family in FAMILIES.items():
            for parameters in [(), *INSIDE.get(name, [])]:
                function = family.make(*parameters)
                verdict = gjcut.extreme(function)
                self.assertEqual(verdict.claim, family.known, (name, parameters))
                jumping += not function.is_continuous
        self.assertGreater(jumping, 20)

    def test_members_outside(self):
        for name, parameters, said in OUTSIDE:
            make = FAMILIES[name].make
            with self.assertRaises(OutOfRange, msg=(name, parameters)) as raised:
                make(*parameters)
            self.assertIn("check_range=False", str(raised.exception))
            if said == "refused":
                with self.assertRaises(gjcut.Refused) as raised:
                    make(*parameters, check_range=False)
                self.assertIn(f"the breakpoints of {name}[1]", str(raised.exception))
            else:
                verdict = gjcut.extreme(make(*parameters, check_range=False))
                self.assertEqual(verdict.claim, said, (name, parameters))

    def test_all_members_with_small_numbers(self):
        for name, (members, is_at_end) in GRIDS.items():
            make, found = FAMILIES[name].make, [0, 0]
            for parameters in members:
                try:
                    function, is_inside = make(*parameters), True
                except OutOfRange:
                    is_inside = False
                    try:
                        function = make(*parameters, check_range=False)
                    except ValueError:  # there is no such function
                        continue
                is_known = is_inside or bool(is_at_end and is_at_end(*parameters))
                claim = gjcut.extreme(function).claim
                self.assertEqual(claim == FAMILIES[name].known, is_known, (name, parameters))
                found[is_inside] += 1
            self.assertGreaterEqual(min(found), 3, (name, found))

    def test_the_examples_of_the_page(self):
        for folder, function in (
            ("gmic", literature.gmic("3/5")),
            ("gj_2_slope", literature.gj_2_slope("3/5", "1/3")),
            ("gj_forward_3_slope", literature.gj_forward_3_slope()),
            ("drlm_backward_3_slope", literature.drlm_backward_3_slope()),
            (
                "drlm_backward_3_slope_outside",
                literature.drlm_backward_3_slope("1/12", "1/3", check_range=False),
            ),
            ("dg_2_step_mir", literature.dg_2_step_mir()),
            ("extreme_at_order_7", literature.extreme_at_order_7()),
            ("ll_strong_fractional", literature.ll_strong_fractional("3/5")),
            (
                "ll_strong_fractional_below_1_2",
                literature.ll_strong_fractional("2/5", check_range=False),
            ),
            (
                "average_of_two",
                literature.average(literature.gmic("1/2"), literature.gj_2_slope("1/2", "1/2")),
            ),
        ):
            text = (EXAMPLES / folder / "input").read_text(encoding="utf-8")
            self.assertEqual(gjcut.by_text(text), function, folder)

    def test_families_that_say_one_thing(self):
        f, half, third = Fraction(4, 5), Fraction(1, 2), Fraction(1, 3)
        is_of = (
            (literature.dg_2_step_mir(f, "3/10"), literature.kf_n_step_mir(f, (1, "3/10"))),
            (literature.bcdsp_arbitrary_slope(third, 2), literature.gmic(third)),
            (
                literature.mlr_cpl3_b_3_slope("1/10", "1/20"),
                literature.drlm_backward_3_slope("1/10", "1/5"),
            ),
            (
                literature.mlr_cpl3_c_3_slope("1/10", "1/8"),
                literature.drlm_backward_3_slope("1/10", "9/40"),
            ),
            (literature.ll_strong_fractional(f), literature.drlm_2_slope_limit(f, 1, 1)),
            (literature.k_cut("3/5", 2), gjcut.times(literature.gmic("1/5"), 2, 1)),
            (literature.two_slope(2, "++-"), literature.gmic("2/3")),
            (literature.half(half), gjcut.family("half", half)),
        )
        for i, (one, other) in enumerate(is_of):
            self.assertEqual(one, other, i)

    def test_arguments(self):
        for make, given, kind, said in (
            (literature.gmic, (0.5,), TypeError, "f: 0.5 is a float"),
            (literature.gmic, (1,), OutOfRange, "not so that 0 < f < 1"),
            (literature.bcdsp_arbitrary_slope, ("1/2", 2.0), TypeError, "k: 2.0 is a float"),
            (literature.kf_n_step_mir, ("4/5", "13"), TypeError, "a: '13' is a str"),
            (literature.kf_n_step_mir, ("4/5", [1, 0.5]), TypeError, "a[1]: 0.5 is a float"),
            (literature.two_slope, (1, "+x-"), ValueError, "a word of + and -"),
        ):
            with self.assertRaises(kind) as raised:
                make(*given)
            self.assertIn(said, str(raised.exception))
        with self.assertRaises(TypeError):
            literature.gmic("1/2", check_range=0)
        for make, given in (
            (literature.dg_2_step_mir, ("4/5", "2/5")),
            (literature.kf_n_step_mir, ("1/2", (1, "1/2", "1/2"))),
            (literature.kf_n_step_mir, ("1/2", (1, "1/3", "1/6"))),
            (literature.psi_n_in_bccz_counterexample_construction, ("1/2", ("1/2", "1/2"))),
        ):
            with self.assertRaises(ValueError) as raised:
                make(*given, check_range=False)
            self.assertIn("divides by 0 for these parameters", str(raised.exception))
        with self.assertRaises(ValueError):
            literature.drlm_2_slope_limit("1/3", 4, 1, check_range=False)

    def test_help_has_range_and_source(self):
        for name, family in FAMILIES.items():
            shown = inspect.getdoc(family.make)
            self.assertIn("Source: ", shown)
            for condition in family.range:
                self.assertIn(condition, shown, name)
            said = " ".join(shown.split())
            self.assertEqual("Not settled: " in said, bool(family.unsettled), name)
            self.assertIn(family.unsettled, said, name)
            self.assertIn("check_range", str(inspect.signature(family.make)))
        self.assertEqual(pickle.loads(pickle.dumps(literature.gmic)), literature.gmic)


class Constructions(unittest.TestCase):
    def test_automorphisms(self):
        function = literature.gmic("2/5")
        self.assertEqual(literature.automorphism(function), literature.gmic("3/5"))
        self.assertIs(literature.automorphism(function, 1), function)
        turned = literature.automorphism(function, 3)
        values = [0, Fraction(2, 3), Fraction(1, 2), Fraction(1, 3), 1]
        self.assertEqual([turned(Fraction(i, 5)) for i in range(5)], values)
        self.assertEqual(gjcut.group(turned).claim, "extreme")
        self.assertEqual(literature.automorphism(turned, 2), function)
        for wrong, given in (((function, 5), "divisor"), ((literature.half("1/3"), 2), "jumps")):
            with self.assertRaises(ValueError) as raised:
                literature.automorphism(*wrong)
            self.assertIn(given, str(raised.exception))

    def test_multiples(self):
        function = literature.multiplicative_homomorphism(literature.gmic("1/2"), -3)
        self.assertEqual((function.f, function("1/18")), (Fraction(5, 6), Fraction(1, 3)))
        self.assertEqual(gjcut.extreme(function).claim, "extreme")

    def test_two_slopes(self):
        function = literature.two_slope_approximation(literature.drlm_backward_3_slope(), 24)
        self.assertEqual(len(set(function.slopes)), 2)
        for i in range(24):
            x = Fraction(i, 24)
            self.assertEqual(function(x), literature.drlm_backward_3_slope()(x))
            y = x + Fraction(1, 77)
            self.assertEqual(function(y) + function(function.f - y), 1)
        # A plain program says that these are extreme.
        six = gjcut.by_values("1/2", [0, "2/3", "1/3", 1, "1/3", "2/3"])
        for given, order in ((six, 12), (literature.extreme_at_order_7(), 14)):
            self.assertEqual(gjcut.extreme(given).claim, "not-extreme")
            near = literature.two_slope_approximation(given, order)
            self.assertEqual(gjcut.extreme(near).claim, "extreme")
        with self.assertRaises(ValueError):
            literature.two_slope_approximation(literature.gmic("3/5"), 5)

    def test_average_and_interpolation(self):
        with self.assertRaises(ValueError):
            literature.average()
        with self.assertRaises(TypeError):
            literature.interpolate("1/2", [0, (1, 1, 1)])
        self.assertEqual(literature.interpolate("1/2", [0, 1]), literature.gmic("1/2"))


if __name__ == "__main__":
    unittest.main()
