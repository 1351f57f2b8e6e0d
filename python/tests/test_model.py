"""Models from files: what is read, and bounds and cuts against all points of small ones."""
import contextlib
import io
import itertools
import random
import re
import tempfile
import unittest
from fractions import Fraction
from pathlib import Path

import gjcut
from gjcut import Column, Constraint, command_line, derivationcheck

try:
    import swiglpk
except ImportError:
    swiglpk = None

needs_glpk = unittest.skipUnless(swiglpk, "there is no swiglpk")

# The program of docs/solver.md, with the optimum 19 at x = 2, y = 3, z = 2.
LP = """Maximize
 gain: 4 x + 5 y - 2 z
Subject To
 first: 2 x + y <= 7
 second: x + 3 y - z <= 9
Generals
 x y
End
"""
MPS = """NAME          EVERYTHING
OBJSENSE
    MAX
ROWS
 N  COST
 L  LIMIT
 G  LEAST
 E  EQUAL
 G  RANGE
COLUMNS
    MARKER    'MARKER'   'INTORG'
    X         COST       1.1   LIMIT      0.1
    X         RANGE      1
    B         COST         2   LIMIT      1e-7
    MARKER    'MARKER'   'INTEND'
    Y         LEAST        3   EQUAL     -0.25
    Z         EQUAL        1   LIMIT      123456789.12345
RHS
    RHS       LIMIT      0.3   LEAST      -1
    RHS       EQUAL      7e2   RANGE       1.5
    RHS       COST      -2.5
RANGES
    RNG       RANGE      2.25
BOUNDS
 UP BND       X          4.5
 FR BND       Y
 MI BND       Z
 UP BND       Z          0.12345678901234
ENDATA
"""
GMPL = """set I := {'a b', 'c"d'};
var x{I} integer, >= 0, <= 3;
maximize gain: 3 * x['a b'] + 5 * x['c"d'] + 7.5;
subject to limit: 2 * x['a b'] + 4 * x['c"d'] <= 7;
end;
"""


def rows_of(path):
    """The entries of the rows of cuts in a file."""
    words = [line.split() for line in path.read_text().splitlines()]
    return {(w[0], w[1], Fraction(w[2])) for w in words if len(w) == 3 and w[1].startswith("cut")}


def rows_in(cuts):
    """The same of cuts."""
    found = {(name, cut.name, value) for cut in cuts for name, value in cut.entries.items()}
    return found | {("RHS", cut.name, cut.right) for cut in cuts if cut.right}


@needs_glpk
class Models(unittest.TestCase):
    def setUp(self):
        folder = tempfile.TemporaryDirectory()
        self.addCleanup(folder.cleanup)
        self.folder = Path(folder.name)

    def read(self, text, suffix=".lp"):
        path = self.folder / f"model{suffix}"
        path.write_text(text)
        return gjcut.model.read(path)

    def command(self, *words):
        said = io.StringIO()
        with contextlib.redirect_stdout(said):
            status = command_line.main(["cuts", *map(str, words)])
        return status, re.sub(r"\d+\.\d\d s", "", said.getvalue().replace(f"{self.folder}/", ""))

    def assertAccepted(self, proof):
        self.assertTrue(gjcut.check(proof.text).accepted)
        self.assertEqual(derivationcheck.check(proof.text.encode()), (0, "accepted derivation"))


class Reading(Models):
    def test_all_of_mps(self):
        found = self.read(MPS, ".mps")
        self.assertEqual((found.is_maximum, found.constant), (True, Fraction("-2.5")))
        self.assertEqual(found.objective, {"X": Fraction("1.1"), "B": 2})
        self.assertEqual(
            found.columns,
            [
                Column("X", True, 0, Fraction("4.5")), Column("B", True, 0, 1),
                Column("Y", False, None, None),
                Column("Z", False, None, Fraction("0.12345678901234")),
            ],
        )  # fmt: skip
        # The bound of Z has so many digits that texts have a weaker one, and this besides.
        self.assertEqual(
            found.constraints,
            [
                Constraint(*each)
                for each in (
                    ("LIMIT", {"X": Fraction("0.1"), "B": Fraction("1e-7"),
                               "Z": Fraction("123456789.12345")}, "<=", Fraction("0.3")),
                    ("LEAST", {"Y": 3}, ">=", -1),
                    ("EQUAL", {"Y": Fraction("-0.25"), "Z": 1}, "=", 700),
                    ("RANGE.lower", {"X": 1}, ">=", Fraction("1.5")),
                    ("RANGE.upper", {"X": 1}, "<=", Fraction("3.75")),
                    ("Z.upper", {"Z": 1}, "<=", Fraction("0.12345678901234")),
                )
            ],
        )  # fmt: skip

    def test_names_come_back(self):
        found = self.read(GMPL, ".mod")
        names = ["x['a b']", "x['c\"d']"]
        self.assertEqual(sorted(each.name for each in found.columns), names)
        # 3x + 5y with 2x + 4y <= 7: x = 3 and y = 0 have 9, and the constant is 7.5.
        found.cuts()
        proof = found.proof()
        self.assertEqual(proof.bound, Fraction("16.5"))
        self.assertAccepted(proof)
        self.assertEqual(sorted(found.relaxation().point), names)
        self.assertIn("# x['a_b'] is the column \"x['a b']\"\n", proof.text)

    def test_what_is_written_is_read(self):
        found = self.read(MPS, ".mps")
        found.write(self.folder / "written.mps")
        again = gjcut.model.read(self.folder / "written.mps")
        # A maximum is written as a minimum, and its constant as the cost of a column.
        self.assertEqual([*found.columns, Column("constant", False, 1, 1)], again.columns)
        costs = {name: -value for name, value in found.objective.items()}
        self.assertEqual({**costs, "constant": -found.constant}, again.objective)
        self.assertEqual((again.constant, again.is_maximum), (0, False))
        self.assertEqual(
            {str(each) for each in found.constraints}, {str(each) for each in again.constraints}
        )
        with self.assertRaises(FileExistsError):
            found.write(self.folder / "written.mps")


class ByHand(Models):
    def test_the_bound_is_the_optimum(self):
        found = self.read(LP)
        rows = found.rows()
        self.assertEqual({row.column: round(row.value, 6) for row in rows}, {"x": 2.4, "y": 2.2})
        # The rows of the inverse of the basis are (3/5, -1/5) and (-1/5, 2/5), with any sign.
        by_column = {row.column: row.multipliers for row in rows}
        for name, pair in (("x", (0.6, -0.2)), ("y", (-0.2, 0.4))):
            ratio = by_column[name]["first"] / pair[0]
            self.assertAlmostEqual(abs(ratio), 1)
            self.assertAlmostEqual(by_column[name]["second"] / pair[1], ratio)
        seen = []
        made = found.cuts(mir=False, callback=seen.append)
        self.assertEqual(made, seen)
        # 2x + 2y - z <= 8 is one of the two; the other is 2x + 5y - 2z <= 15.
        cuts = [(*(cut.entries.get(name, 0) for name in "xyz"), cut.right) for cut in made[0].cuts]
        self.assertEqual(sorted(cuts), [(-2, -5, 2, -15), (-2, -2, 1, -8)])
        proof = found.proof()
        self.assertEqual((proof.bound, len(made)), (19, 1))
        self.assertAccepted(proof)

    def test_what_round_may_be(self):
        bounds = []
        for parts in (1, 2**31 - 1, None):
            found = self.read(LP)
            found.cuts(1, round=parts, mir=False)
            proof = found.proof()
            self.assertAccepted(proof)
            bounds.append(proof.bound)
        self.assertEqual(bounds, [19] * 3)
        for wrong, kind in ((0, ValueError), (2**31, ValueError), (2.0, TypeError), ("4", TypeError)):
            with self.assertRaisesRegex(kind, "^round: "):
                found.cuts(round=wrong)

    def test_a_wrong_number_is_found(self):
        found = self.read(LP)
        found.cuts()
        right = found.proof().text
        wrong = right.replace("claim -8\n", "claim -7\n")
        line = right.splitlines().index("step cut1 gmic") + 1
        if right.splitlines()[line + 3] != "claim -8":
            line = right.splitlines().index("step cut2 gmic") + 1
        judgement = gjcut.check(wrong)
        self.assertEqual((judgement.line, judgement.rule.split()[0]), (line, "right"))
        self.assertEqual(derivationcheck.check(wrong.encode())[0], 1)


def points_of(columns, constraints):
    """All points of whole columns that meet the constraints."""
    ranges = [range(int(column.lower), int(column.upper) + 1) for column in columns]
    for values in itertools.product(*ranges):
        point = {column.name: value for column, value in zip(columns, values)}
        if all(holds(point, *each[1:]) for each in constraints):
            yield point


def holds(point, entries, sense, right):
    total = sum(value * point[name] for name, value in entries.items())
    return {"<=": total <= right, ">=": total >= right, "=": total == right}[sense]


class AgainstAllPoints(Models):
    """Whole columns from 0 to 2, with whole data, decimals, and all digits of doubles."""

    def model(self, chance, kind):
        number = {
            "whole": lambda: str(chance.randint(1, 30)),
            "decimal": lambda: str(round(chance.uniform(0.1, 9), 2)),
            "double": lambda: repr(chance.uniform(0.1, 9) * 10 ** chance.randint(-1, 6)),
            "large": lambda: str(chance.randint(10**7, 10**9)),
        }[kind]
        names = [f"x{j}" for j in range(5)]
        lines = ["Minimize", " cost: " + " + ".join(f"{number()} {name}" for name in names)]
        lines.append("Subject To")
        for i in range(3):
            entries = {name: number() for name in names if chance.random() < 0.8} or {"x0": "1"}
            right = 1.1 * sum(map(float, entries.values()))
            terms = " + ".join(f"{value} {name}" for name, value in entries.items())
            lines.append(f" c{i}: {terms} >= {right!r}")
        lines += ["Bounds", *(f" {name} <= 2" for name in names)]
        return self.read("\n".join([*lines, "Generals", " ".join(names), "End"]))

    def test_no_point_is_removed_and_the_bound_holds(self):
        chance, proved, cut = random.Random(72), 0, 0
        for kind in ("whole", "decimal", "double", "large") * 3:
            found = self.model(chance, kind)
            points = list(points_of(found.columns, found.constraints))
            best = min(sum(v * point[n] for n, v in found.objective.items()) for point in points)
            for made in found.cuts(6):
                for each in made.cuts:
                    self.assertTrue(all(holds(p, each.entries, ">=", each.right) for p in points))
                    cut += 1
            proof = found.proof()
            self.assertLessEqual(proof.bound, best)
            self.assertAccepted(proof)
            proved += proof.bound == best
            found.write(self.folder / "with_cuts.mps", force=True)
            # In the file the numbers of cuts stand in all their digits, and so as they were.
            self.assertEqual(rows_of(self.folder / "with_cuts.mps"), rows_in(found.active))
        self.assertGreater(cut, 50)
        self.assertGreater(proved, 1)

    def test_columns_without_bounds(self):
        # The least of z with z >= 3x - 4, z >= 4 - 3x, z free: 1 at x = 1, and at x = 1.5 0.5.
        found = self.read(
            "Minimize\n c: z + 0.001 w\nSubject To\n a: z - 3 x >= -4\n b: z + 3 x >= 4\n"
            " d: w - 0.5 x >= 0.2\nBounds\n z free\n w free\n x <= 10\nGenerals\n x\nEnd\n"
        )
        found.cuts()
        proof = found.proof()
        self.assertAccepted(proof)
        self.assertEqual(proof.bound, Fraction("1.0007"))

    def test_no_point_at_all(self):
        found = self.read("Minimize\n c: x\nSubject To\n a: 2 x + 4 y = 7\nGenerals\n x y\nEnd\n")
        found.cuts()
        proof = found.proof()
        self.assertIsNone(proof.bound)
        self.assertAccepted(proof)


class AtATerminal(Models):
    def test_a_bound_and_its_files(self):
        (self.folder / "model.lp").write_text(LP)
        out, proof = self.folder / "out.mps", self.folder / "out.gj"
        words = [self.folder / "model.lp", "--write", out, "--proof", proof]
        status, said = self.command(*words)
        self.assertEqual(status, 0)
        self.assertIn("relaxation: 20.6\nround 1: 19, 2 new cuts, 2 in all", said)
        self.assertIn("proved: the objective is at most 19 at each feasible point\n", said)
        self.assertTrue(gjcut.check(proof.read_text()).accepted)
        self.assertAlmostEqual(gjcut.model.read(out).relaxation().bound, -19)
        self.assertEqual(self.command(*words)[0], 5)
        self.assertEqual(self.command(*words, "--force")[0], 0)

    def test_bad_input(self):
        whole = "Generals\n x\nEnd\n"
        for text, status, words in (
            ("Minimize\n c: x + + y\n", 3, "GLPK does not read it as CPLEX LP: line 2: "),
            ("Minimize\n c: x\nSubject To\n a: x >= 0.5\nEnd\n", 8, "no column is whole"),
            ("Minimize\n c: x\nSubject To\n a: x - y >= 0\nBounds\n x free\n y free\n" + whole, 8,
             "the relaxation is unbounded"),
            ("Minimize\n c: x\nSubject To\n a: x >= 3\nBounds\n x <= 2\n" + whole, 8,
             "the relaxation has no feasible point"),
        ):  # fmt: skip
            (self.folder / "model.lp").write_text(text)
            found, said = self.command(self.folder / "model.lp")
            self.assertEqual((found, words in said), (status, True), said)
        status, said = self.command(self.folder / "none.mps")
        words = "none.mps: it cannot be read: No such file or directory\n"
        self.assertEqual((status, said), (4, words))
        self.assertEqual(self.command(self.folder)[0], 3)
        (self.folder / "model.lp").write_text(LP)
        self.assertEqual(self.command(self.folder / "model.lp", "--seconds", 0)[0], 16)

    def test_ctrl_c(self):
        found = self.read(LP)

        def stop(_):
            raise KeyboardInterrupt

        with self.assertRaises(KeyboardInterrupt):
            found.cuts(callback=stop)
        self.assertEqual((len(found.rounds), found.proof().bound), (1, 19))
