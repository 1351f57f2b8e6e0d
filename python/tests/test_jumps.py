"""Functions that jump: their verdicts and halves, their faces, what is said of them at a terminal,
and their proofs in words. The examples have the answers of the program."""
import contextlib
import io
import unittest
from fractions import Fraction
from pathlib import Path

import gjcut
from gjcut import command_line, explain
from gjcut.sentences import RULES, rule_in_words, told

EXAMPLES = Path(__file__).resolve().parents[2] / "examples"


def example(folder, file="input"):
    return (EXAMPLES / folder / file).read_text()


def front(*words):
    """What a command prints, and its status."""
    said = io.StringIO()
    with contextlib.redirect_stdout(said):
        status = command_line.main(list(words))
    return said.getvalue(), status


class Verdicts(unittest.TestCase):
    def test_the_flag_is_given_for_every_function(self):
        for name in ("strong_fractional", "two_sided", "one_sided", "not_extreme", "not_at_all"):
            folder = f"extreme/jumps_{name}"
            verdict = gjcut.extreme(gjcut.by_text(example(folder)))
            self.assertEqual(verdict.text, example(folder, "output"))
            self.assertTrue(gjcut.check(verdict.text))
        found = gjcut.faces(gjcut.by_text(example("faces/jumps_uncovered")))
        self.assertEqual(found.text, example("faces/jumps_uncovered", "output"))
        self.assertEqual(repr(found), "<6 faces, 0 covered intervals, 2 uncovered>")

    def test_halves_have_limits(self):
        function = gjcut.by_text(example("extreme/jumps_of_the_halves_alone"))
        verdict = gjcut.extreme(function)
        first, second = verdict.halves
        self.assertEqual((first + second) / 2, function)
        self.assertEqual(function + verdict.perturbation, first)
        for half in verdict.halves:
            self.assertTrue(gjcut.minimal(half).is_minimal)
        # The line `pair 13 12 11 11 12 13`, over 24, at a place where the function is continuous.
        quarter, sides = Fraction(1, 4), (Fraction(13, 24), Fraction(1, 2), Fraction(11, 24))
        self.assertEqual(first.limits(quarter)[1:], sides)
        self.assertEqual(second.limits(quarter)[1:], sides[::-1])
        self.assertEqual(set(function.limits(quarter)[1:]), {Fraction(1, 2)})
        shown = "<verdict: not-extreme, two halves at the multiples of 1/4>"
        self.assertEqual(repr(verdict), shown)

    def test_an_uncovered_interval_gives_halves_without_new_jumps(self):
        verdict = gjcut.extreme(gjcut.family("half", "1/2"))
        self.assertTrue(verdict.perturbation.is_continuous)
        self.assertEqual(verdict.perturbation("1/8"), Fraction(1, 6))
        self.assertEqual([len(half) for half in verdict.halves], [8, 8])

    def test_cover_lines_have_faces_that_are_tight_along_one_edge(self):
        function = gjcut.by_text(example("faces/jumps_covered_by_limits"))
        found = gjcut.faces(function)
        (cover,) = [each for each in found.covers if each.face not in found.faces]
        self.assertEqual((cover.face.kind, cover.face.a, cover.face.b), ("upper", 0, 2))
        self.assertEqual(cover.interval, (Fraction(3, 5), Fraction(4, 5)))
        self.assertEqual(found.uncovered, ())
        f = function.f
        self.assertEqual(gjcut.covered(function).components, (((0, f),), ((f, 1),)))

    def test_a_proof_of_a_function_that_jumps_says_which(self):
        judgement = gjcut.check(example("check/jumps_not_extreme"))
        self.assertTrue(judgement)
        function = gjcut.by_text(example("extreme/jumps_not_extreme"))
        self.assertEqual((judgement.claim, judgement.function), ("not-extreme", function))

    def test_many_functions(self):
        from concurrent.futures import ThreadPoolExecutor

        functions = [gjcut.literature.half("1/3"), gjcut.literature.gmic("1/3")]
        with ThreadPoolExecutor(2) as threads:
            claims = [each.claim for each in gjcut.map(gjcut.extreme, functions, threads)]
        self.assertEqual(claims, ["not-extreme", "extreme"])


class Sentences(unittest.TestCase):
    def test_verdicts_at_a_terminal(self):
        by_limits = "by their values and limits at the multiples of 1/4"
        for folder, words in (
            ("extreme/jumps_strong_fractional", "extreme: the function is minimal, and no average"),
            ("extreme/jumps_of_the_halves_alone", "not extreme: the function is minimal, and the"),
        ):
            said, status = front("extreme", str(EXAMPLES / folder / "input"))
            self.assertEqual((said[: len(words)], status), (words, 0))
        self.assertIn(by_limits, said)
        folder = EXAMPLES / "extreme/jumps_in_json"
        said, status = front("extreme", "--json", str(folder / "input"))
        self.assertEqual((said, status), ((folder / "output").read_text(), 0))
        folder = EXAMPLES / "faces/jumps_strong_fractional"
        said, status = front("faces", str(folder / "input"))
        self.assertEqual((said, status), ((folder / "output").read_text(), 0))

    def test_without_the_flag_the_answer_says_what_to_write(self):
        half = "gj-function 1\nfamily half 1/2\nend\n"
        for words, what in (
            ("extreme", "the function is minimal, and jumps at 0"),
            ("faces", "the function jumps at 0"),
        ):
            means, do = told(words, half, 8, "not continuous 0")
            self.assertIn(what, means)
            self.assertIn(f"{words} --jumps", do)
        means, do = told("minimal --jumps", half, 2, "words refused")
        self.assertIn("a command that has no such word", means)
        self.assertIn("`--jumps` once, with `extreme` or `faces`", do)

    def test_rules_of_a_text_3(self):
        text = example("check/jumps_strong_fractional")
        for rule, words in (
            ("cover", "by an edge with limits 0 at both ends"),
            ("row", "the limit of the slack that this row names is not 0"),
            ("rank", "values, limits and slopes"),
            ("pivot", RULES["pivot"]),
        ):
            self.assertIn(words, rule_in_words(rule, text))
            self.assertEqual(rule_in_words(rule, example("check/extreme")), RULES[rule])
        for wrong, kind in (((3, text), TypeError), (("rule", text), ValueError)):
            with self.assertRaises(kind):
                rule_in_words(*wrong)

    def test_a_rejected_proof_at_a_terminal(self):
        text = example("check/jumps_strong_fractional").replace("row 0 1 +0+", "row 0 1 -0-")
        chosen = command_line.parser().parse_args(["check"])
        asked = command_line.Asked("p", "check", text.encode())
        said = command_line.answered(chosen, asked, *gjcut.call("check", text)).said
        why = "the limit of the slack that this row names is not 0"
        self.assertEqual(said.splitlines()[0], f"rejected: line 19, `row 0 1 -0-`: {why}")


class Words(unittest.TestCase):
    def lines(self, folder):
        return dict(explain.explained(example(folder)))

    def test_cover_lines(self):
        found = self.lines("check/jumps_covered_by_limits")
        self.assertEqual(
            found["cover 3 2 upper 0 2"],
            "from the inside of the triangle with the corners (1/5, 2/5), (0, 3/5), (1/5, 3/5) the "
            "slack tends to 0 along its edge with the ends (1/5, 2/5), (1/5, 3/5); so [3/5, 4/5] "
            "is covered, with the slope of [2/5, 3/5], in component 1",
        )
        self.assertTrue(found["cover 0 0 upper 0 0"].startswith("inside of the triangle with the"))

    def test_rows_and_unknowns(self):
        found = self.lines("check/jumps_strong_fractional")
        for line, words in (
            (
                "row 0 3 -+0",
                "an equation: the limit from the left at 0 and the limit from the right at 3/5 add "
                "up to the value at 3/5, like the function's",
            ),
            ("pivot 0", "what is left is solved for the limit from the right at 4/5"),
            ("pivot 7", "what is left is solved for the value at 1/5"),
            ("pivot 9", "what is left is solved for the slope of component 0"),
            (
                "end",
                "as many equations as unknowns, 10: every value, limit and slope of a perturbation "
                "is 0, so there is none but 0",
            ),
        ):
            self.assertEqual(found[line], words)
        # A text 3 has these unknowns, whatever its function is.
        found = self.lines("check/jumps_text_of_continuous")
        self.assertEqual(found["pivot 3"], "what is left is solved for the slope of component 0")

    def test_halves(self):
        found = self.lines("check/jumps_of_the_halves_alone")
        words = found["halves 4 24"]
        self.assertIn("two minimal functions by their values and limits at the multiples", words)
        self.assertIn("the equations for the values, limits and slopes of a perturbation", words)
        self.assertIn("the slopes 0 on [0, 1], and jumps at 0, 1/4, 1/2, 3/4", words)
        self.assertEqual(
            found["pair 13 12 11 11 12 13"],
            "at 1/4: (13/24, 1/2, 11/24) and (11/24, 1/2, 13/24), which differ",
        )
        words = self.lines("check/jumps_uncovered")["halves 8 24"]
        self.assertIn("Their difference bends inside of [0, 1/2]: there it is uncovered", words)


if __name__ == "__main__":
    unittest.main()
