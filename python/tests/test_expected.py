"""What a person expects of the package who has not read its pages."""
import contextlib
import io
import pydoc
import tempfile
import unittest
from fractions import Fraction
from pathlib import Path

import gjcut
from gjcut import command_line

TOP = Path(__file__).resolve().parents[2]
EXAMPLES = TOP / "examples"
GMIC = gjcut.Function("gj-function 2\nf 3/5\npoint 0 0\npoint 3/5 1\nend\n")
SIX = gjcut.Function(
    "gj-function 1\norder 6\nf 1/2\npoint 0\npoint 2/3\npoint 1/3\npoint 1\npoint 1/3\npoint 2/3\n"
    "end\n"
)
# All its intervals are covered, and the slopes are not determined (examples/extreme).
EIGHT = gjcut.Function(
    "gj-function 1\norder 8\nf 7/8\npoint 0\npoint 1/5\npoint 3/10\npoint 2/5\npoint 3/5\n"
    "point 7/10\npoint 4/5\npoint 1\nend\n"
)
HALF = gjcut.Function("gj-function 1\norder 2\nf 1/2\npoint 1/2 0 1/2\npoint 1/2 1 1/2\nend\n")


def terminal(*words, text=""):
    """The status, and what a command prints of a text."""
    said = io.StringIO()
    with tempfile.TemporaryDirectory() as folder, contextlib.redirect_stdout(said):
        file = Path(folder) / "input"
        file.write_text(text)
        status = command_line.main([*words, str(file)])
    return status, said.getvalue().replace(str(file), "FILE")


class Truth(unittest.TestCase):
    def test_a_judgement_is_true_exactly_if_it_is_accepted(self):
        proof = gjcut.extreme(GMIC).text
        self.assertTrue(gjcut.check(proof))
        self.assertFalse(gjcut.check(proof.replace("row f", "row 1 4")))

    def test_a_verdict_is_no_bool(self):
        for verdict in (gjcut.minimal(GMIC), gjcut.extreme(GMIC), gjcut.group(GMIC)):
            with self.assertRaisesRegex(TypeError, r"\.is_extreme or \.is_minimal"):
                bool(verdict)

    def test_what_a_verdict_says_in_a_bool(self):
        crooked = gjcut.by_breakpoints("3/5", [(0, 0), ("3/5", "9/10")])
        for function, is_minimal, is_extreme in (
            (GMIC, True, True), (SIX, True, False), (crooked, False, False)
        ):
            verdict = gjcut.extreme(function)
            self.assertIs(verdict.is_minimal, is_minimal)
            self.assertIs(verdict.is_extreme, is_extreme)
            self.assertIs(gjcut.minimal(function).is_minimal, is_minimal)
        self.assertIs(gjcut.minimal(crooked).is_extreme, False)
        with self.assertRaisesRegex(ValueError, "ask `extreme`"):
            gjcut.minimal(GMIC).is_extreme


class Functions(unittest.TestCase):
    def test_a_function_is_called(self):
        self.assertEqual(GMIC("1/5"), Fraction(1, 3))
        with self.assertRaisesRegex(TypeError, "x: 0.5 is a float"):
            GMIC(0.5)

    def test_slopes(self):
        self.assertEqual(GMIC.slopes, (Fraction(5, 3), Fraction(-5, 2)))
        self.assertEqual(HALF.slopes, (0, 0))
        self.assertEqual(len(SIX.slopes), len(SIX.breakpoints))

    def test_whether_it_is_continuous(self):
        self.assertIs(GMIC.is_continuous, True)
        self.assertIs(HALF.is_continuous, False)

    def test_the_text_by_breakpoints(self):
        shown = gjcut.by_text(GMIC.text)
        self.assertIn("order 5", shown.text)
        self.assertEqual(shown.breaks(), GMIC.text)
        self.assertEqual(gjcut.by_text(HALF.breaks()), HALF)

    def test_the_package_has_a_version(self):
        settings = (TOP / "python/pyproject.toml").read_text()
        self.assertIn(f'version = "{gjcut.__version__}"\n', settings)

    def test_help_begins_with_the_functions(self):
        first = pydoc.plain(pydoc.render_doc(gjcut))[:2500]
        for name in gjcut.__all__:
            if name[0].islower():
                mark = "(" if callable(getattr(gjcut, name)) else "."
                self.assertIn(f"{name}{mark}", first)


class Answers(unittest.TestCase):
    def test_faces_and_covered_intervals(self):
        text = (EXAMPLES / "faces/six_pieces/output").read_text()
        function = gjcut.by_text((EXAMPLES / "faces/six_pieces/input").read_text())
        found = gjcut.faces(function)
        self.assertEqual(found.text, text)
        lines = [f"{face.kind} {face.a} {face.b}" for face in found.faces]
        self.assertEqual(lines, text.split("cover", 1)[0].splitlines()[2:])
        third, sixth, half = Fraction(1, 3), Fraction(1, 6), Fraction(1, 2)
        self.assertEqual(found.faces[5].corners, ((third, sixth), (sixth, third)))
        self.assertEqual(found.covers[1].joined_to, (0, sixth))
        uncovered = (sixth, third), (half + sixth, half + third)
        self.assertEqual(found.uncovered, uncovered)
        components = ((0, sixth), (third, half)), ((half, half + sixth), (half + third, 1))
        self.assertEqual(gjcut.covered(function), (components, uncovered))
        f = Fraction(3, 5)
        self.assertEqual(gjcut.covered(GMIC), ((((0, f),), ((f, 1),)), ()))

    def test_the_table_of_a_function(self):
        seven = gjcut.by_text((EXAMPLES / "group/extreme_of_order_7/input").read_text())
        self.assertIs(gjcut.group(seven).is_extreme, True)
        verdict = gjcut.group(SIX)
        first, second = verdict.halves
        self.assertEqual(verdict.claim, "not-extreme")
        values = [(a + b) / 2 for a, b in zip(first, second)]
        self.assertEqual(values, [point.value for point in SIX])
        self.assertNotEqual(first, second)

    def test_the_perturbation(self):
        verdict = gjcut.extreme(SIX)
        self.assertEqual(SIX + verdict.perturbation, verdict.halves[0])
        self.assertEqual(SIX - verdict.perturbation, verdict.halves[1])
        self.assertIsNone(gjcut.extreme(GMIC).perturbation)

    def test_a_verdict_is_printed_shortly(self):
        self.assertEqual(repr(gjcut.extreme(GMIC)), "<verdict: extreme>")
        crooked = gjcut.by_breakpoints("3/5", [(0, 0), ("3/5", "9/10")])
        self.assertEqual(
            repr(gjcut.extreme(crooked)), "<verdict: not-minimal, asymmetric at 0>"
        )
        self.assertLess(len(repr(gjcut.extreme(SIX))), 80)
        self.assertLess(len(repr(gjcut.group(SIX))), 100)

    def test_check_tells_which_function_a_proof_is_of(self):
        self.assertEqual(gjcut.check(gjcut.extreme(SIX).text).function, SIX)
        rejected = gjcut.extreme(GMIC).text.replace("row f", "row 1 4")
        self.assertEqual(gjcut.check(rejected).function, GMIC)
        cuts = gjcut.cut("gmic", ["a"], [("x", "1/2", [1])])
        self.assertIsNone(gjcut.check(cuts.text).function)
        _, said = terminal("check", text=gjcut.extreme(GMIC).text)
        self.assertIn("f = 3/5, breakpoints (0, 0), (3/5, 1)", said)

    def test_explain_names_what_is_uncovered_or_the_kernel(self):
        _, said = terminal("explain", text=gjcut.extreme(SIX).text)
        self.assertIn("They differ at 2 of 24 places: 5/24, 7/24. Their difference bends", said)
        self.assertIn("bends inside of [1/6, 1/3]: there it is uncovered", said)
        _, said = terminal("explain", text=gjcut.extreme(EIGHT).text)
        self.assertIn("They differ at 6 of 8 places: 1/8, 1/4, 3/8, 1/2, 5/8, 3/4", said)
        self.assertIn("leave a kernel", said)
        self.assertIn("at 1/8: 1/6 and 7/30, which differ", said)

    def test_all_violations(self):
        crooked = gjcut.by_values("1/2", [0, "1/3", 1, "1/2"])
        shown = gjcut.minimal(crooked, violations=10)
        self.assertEqual(shown.violation, shown.violations[0])
        self.assertEqual(
            [str(each) for each in shown.violations],
            ["asymmetric at 1/4", "superadditive at 1/4 and 1/4"],
        )
        self.assertEqual(len(gjcut.extreme(crooked, violations=1).violations), 1)
        self.assertEqual(gjcut.minimal(GMIC, violations=10).violations, ())
        for wrong, kind in ((0, ValueError), (True, TypeError), ("3", TypeError)):
            with self.assertRaisesRegex(kind, "^violations: "):
                gjcut.minimal(GMIC, violations=wrong)
        status, said = terminal("minimal", "--violations", "5", text=crooked.text)
        self.assertEqual(status, 0)
        self.assertEqual(len(said.splitlines()), 3)

    def test_the_first_of_all_violations_is_that_of_the_program(self):
        tried = 0
        for example in sorted(EXAMPLES.glob("*/*/input")):
            text = example.read_bytes()
            status, said = gjcut.call("minimal", text)
            if not status and "claim not-minimal" in said:
                verdict = gjcut.minimal(gjcut.by_text(text), violations=3)
                self.assertEqual(verdict.violations[0], verdict.violation, example)
                self.assertEqual(len(set(verdict.violations)), len(verdict.violations))
                tried += 1
        self.assertGreater(tried, 10)

    def test_a_problem_is_answered_in_sentences(self):
        _, said = terminal("problem", text=(EXAMPLES / "problem/worked/input").read_text())
        line = "sum 1: at each feasible point -5/3 x - 5/3 y + 5/6 z >= -20/3"
        self.assertEqual(said.splitlines()[0], line)


class Refusals(unittest.TestCase):
    def refusal(self, call, *arguments):
        with self.assertRaises(gjcut.Refused) as caught:
            call(*arguments)
        return str(caught.exception)

    def test_an_error_has_the_sentence_of_the_terminal(self):
        points = [(0, 0), ("3/5", 1), ("3/5", 0)]
        said = self.refusal(gjcut.by_breakpoints, "3/5", points)
        self.assertTrue(said.startswith("points[2]: refused, break: a jump is written as two"))
        self.assertIn("write one line, with the limit from the left", said)
        self.assertIn("often by a breakpoint more", self.refusal(gjcut.fill, HALF))
        said = self.refusal(gjcut.check, GMIC.text)
        self.assertIn("let `extreme` or `minimal` write the proof", said)
        self.assertIn("take a smaller N", self.refusal(gjcut.times, SIX, 500))

    def test_a_place_below_0(self):
        said = self.refusal(gjcut.by_breakpoints, "3/5", [(0, 0), ("-1/5", 1)])
        self.assertIn("its points lie from 0 to below 1; add 1 to the place", said)
        self.assertNotIn("is not to the right", said)

    def test_where_it_jumps(self):
        jumps = gjcut.by_breakpoints("1/2", [(0, 0), ("1/4", "1/2", 0, "1/2"), ("1/2", 1)])
        _, said = terminal("group", text=jumps.text)
        self.assertIn("The function jumps at 1/4, and", said)
        _, said = terminal("fill", text="gj-function 2\nf 3/5\npoint 0 0\npoint 3/5 -1\nend\n")
        self.assertIn("The values at 1/5 and 3/5 add up to less than that at 1/5 + 3/5", said)

    def test_the_order_that_was_reached(self):
        said = self.refusal(gjcut.by_breakpoints, "3/5", [(0, 0), ("500/1009", 1)])
        self.assertIn("here the order is 5,045", said)
        self.assertIn("here the order is 1,001", self.refusal(gjcut.family, "gmic", "1/1001"))
        said = self.refusal(gjcut.family, "two-slope", 600, "+" * 600 + "-" * 600)
        self.assertIn("here the order is 1,200", said)

    def test_texts_that_are_no_proofs(self):
        for command, text, what in (
            ("faces", GMIC.text, "a list of additive faces"),
            ("group", GMIC.text, "the decision of a table"),
            ("mixed", "gj-rule 1\ngmic\nend\nbasic,rhs,x\ny,1/2,1\n", "cuts of rows"),
            ("problem", (EXAMPLES / "problem/worked/input").read_text(), "cuts of a problem"),
        ):
            said = self.refusal(gjcut.check, gjcut.call(command, text).text)
            self.assertIn(f"this is what `{command}` writes: {what}, and no proof", said)

    def test_points_in_a_dict(self):
        with self.assertRaisesRegex(TypeError, r"list\(points\.items\(\)\)"):
            gjcut.by_breakpoints("3/5", {0: 0, "3/5": 1})


if __name__ == "__main__":
    unittest.main()
