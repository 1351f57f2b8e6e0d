"""The commands of `python3 -m gjcut`, and the sentences that they print."""
import os
import re
import subprocess
import sys
import tempfile
import unittest
from pathlib import Path

import gjcut
from gjcut import command_line
from gjcut.sentences import CAUSES, RULES, SENTENCES, sentence_for

TOP = Path(__file__).resolve().parents[2]
EXAMPLES = TOP / "examples"
PACKAGES = Path(gjcut.__file__).parents[1]


def front(*words, text=""):
    environment = {**os.environ, "PYTHONPATH": str(PACKAGES)}
    done = subprocess.run(
        [sys.executable, "-m", "gjcut", *words],
        input=text,
        env=environment,
        cwd=EXAMPLES,
        capture_output=True,
        text=True,
        check=False,
    )
    return done.returncode, done.stdout, done.stderr


class Sentences(unittest.TestCase):
    def test_each_has_an_input_that_causes_it(self):
        for each in SENTENCES:
            given = each.input * each.times
            _, said = gjcut.call(each.words, given)
            line = each.answer if each.answer in said.splitlines() else said.strip()
            self.assertEqual(line, each.answer, each.see)
            self.assertIs(sentence_for(each.words, given, line), each, each.see)

    def test_each_refusal_of_the_examples_has_one(self):
        tried = 0
        for example in sorted(EXAMPLES.glob("*/*/words")):
            words = " ".join(example.read_text().split())
            text = (example.parent / "input").read_bytes().decode("utf-8", "replace")
            said = (example.parent / "output").read_text().strip()
            if int((example.parent / "status").read_text()) not in (0, 1, 4, 5, 6, 7):
                self.assertIsNotNone(
                    sentence_for(words, text, said), f"{example.parent.name}: {said}"
                )
                tried += 1
        self.assertGreater(tried, 60)

    def test_each_rule_of_the_checker_has_one(self):
        page = (TOP / "docs/formats.md").read_text()
        begin, end = "## The rules of the checker", "## Words, answers and statuses"
        rows = re.findall(
            r"^\| [^|]*\| [^|]*\| ([^|]*) \|", page[page.index(begin) : page.index(end)], re.M
        )
        rules = {word for row in rows for word in re.findall(r"`(\w+)`", row)}
        self.assertEqual(set(RULES), rules)

    def test_each_cause_of_a_rejected_step_has_one(self):
        page = (TOP / "docs/formats.md").read_text()
        begin, end = "### What a step shows", "## Summary of the demonstration"
        section = page[page.index(begin) : page.index(end)]
        causes = re.findall(r"^\| `(\w+)[^|]*\|", section, re.M)
        self.assertEqual([*CAUSES], [*causes, "lost"])


class Commands(unittest.TestCase):
    def test_verdicts(self):
        asymmetric = "it is not symmetric, since its values at 4/5 and at f - 4/5 = 4/5 are 1/3"
        extreme = "extreme: the function is minimal, and no average of two other valid functions"
        for example, command, begin in (
            ("minimal/by_breakpoints", "minimal", "minimal: the function is 0 at 0, nowhere neg"),
            ("extreme/five_pieces", "extreme", extreme),
            ("extreme/not_extreme_six_pieces", "extreme", "not extreme: the function is minimal, and the"),
            ("minimal/asymmetric_point", "minimal", f"not minimal: {asymmetric}"),
            ("minimal/superadditive_pair", "minimal", "not minimal: it is not subadditive, since"),
            ("minimal/negative_value", "minimal", "not minimal: its value at"),
            ("minimal/not_zero_at_zero", "minimal", "not minimal: its value at 0 is"),
            ("check/extreme", "check", "accepted: the function is extreme"),
            ("check/minimal_rejected", "check", "rejected: line 2, `claim minimal`: the function"),
            ("group/six_pieces", "group", "not extreme: the table of the function at the"),
            ("cut/two_columns", "cut", "x0: 2/3 x1 + 1/2 x2 >= 1"),
            ("cut/skipped_rows", "cut", "x0: no cut, since its right side 3 is whole"),
            ("mixed/by_gmic", "mixed", "x0: 5/12 x1 + 5/4 c:z1 + 5/2 c:z2 >= 1"),
        ):
            status, said, errors = front(command, f"{example}/input")
            self.assertEqual((said[: len(begin)], errors), (begin, ""), example)
            self.assertEqual(status, int(said.startswith("rejected")), example)

    def test_problems(self):
        for example, lines in (
            ("worked", ["sum 1: at each feasible point -5/3 x - 5/3 y + 5/6 z >= -20/3"]),
            ("infeasible", ["sum 1: no point is feasible: there 0 >= 1"]),
            ("integral", ["sum 1: no cut, since the right side of the sum is whole"]),
            ("wide", ["sum 1: no cut, since a number would have more than 127 bits"]),
            ("free_columns", ["sum 1: no cut, since y has no bound and cannot be left out, or its"]),
        ):
            status, said, errors = front("problem", f"problem/{example}/input")
            self.assertEqual((status, errors), (0, ""), example)
            for line, begin in zip(said.splitlines(), lines):
                self.assertEqual(line[: len(begin)], begin)
            output = (EXAMPLES / "problem" / example / "output").read_text()
            self.assertEqual(
                front("problem", "--proof", f"problem/{example}/input")[:2], (0, output)
            )
        status, said, _ = front("problem", "problem/refused_place/input")
        self.assertEqual(status, 3)
        self.assertIn("line 5: refused, place", said)
        self.assertIn("No column before it has this name.", said)

    def test_derivations(self):
        for words, example, begin in (
            ("check", "check/derivation", "accepted: each claim follows, and holds at all feasib"),
            ("check", "check/derivation_sign", "rejected: line 26, `step best linear`: the mult"),
            ("derive", "derive/grid", "step a: at each feasible point -3/2 x - 3/2 y + z >= -20/3\n"),
            ("derive", "derive/left_out", "step none: left out, since the right side of the sum"),
            ("derive", "derive/lost", "rejected: line 17, `step sum linear`: it names none, whi"),
        ):
            status, said, errors = front(words, f"{example}/input")
            wanted = int((EXAMPLES / example / "status").read_text())
            self.assertEqual((status, errors), (wanted, ""), example)
            self.assertEqual(said[: len(begin)], begin)
        said = front("check", "check/derivation/input")[1]
        self.assertEqual(said.splitlines()[1], "  the last step, best: -4 x - 5 y + 2 z >= -19")
        said = front("explain", "check/derivation/input")[1]
        self.assertIn("-1/5 times x + 3 y - z <= 9, which is second", said)
        status, said, _ = front("check", "check/derivation_without_claim/input")
        self.assertEqual(status, 3)
        self.assertIn("The step before claims nothing.", said)

    def test_the_text_of_the_program(self):
        for example, words in (
            ("extreme/five_pieces", ["extreme", "--proof"]),
            ("minimal/in_json", ["minimal", "--json"]),
            ("transform/times_2_1", ["times", "2", "1"]),
            ("derive/worked", ["derive", "--proof"]),
            ("demo/50", ["demo", "50"]),
        ):
            files = [] if words[0] == "demo" else [f"{example}/input"]
            status, said, _ = front(*words, *files)
            self.assertEqual(
                (status, said), (0, (EXAMPLES / example / "output").read_text()), example
            )

    def test_standard_input(self):
        example = "minimal/by_breakpoints/input"
        text = (EXAMPLES / example).read_text()
        for words in (["minimal"], ["minimal", "-"]):
            self.assertEqual(front(*words, text=text)[:2], (0, front("minimal", example)[1]))

    def test_a_rule_beside_the_tableau(self):
        with tempfile.TemporaryDirectory() as folder:
            table = Path(folder) / "table.csv"
            table.write_text("basic,rhs,x1,s1\nx0,8/5,7/5,-1/5\n")
            expected = "x0: 2/3 x1 + 1/2 s1 >= 1\n"
            self.assertEqual(front("cut", "--rule", "gmic", str(table)), (0, expected, ""))
            rule = "minimal/by_breakpoints/input"
            self.assertEqual(front("cut", "--rule", rule, str(table)), (0, expected, ""))

    def test_many_files_give_the_worst_status_and_a_count(self):
        files = [
            "extreme/five_pieces/input",
            "extreme/not_extreme_six_pieces/input",
            "minimal/breaks_place/input",
            "no_such_file",
        ]
        status, said, errors = front("extreme", "--progress", *files)
        self.assertEqual(status, 4)
        self.assertEqual(
            said.splitlines()[-1], "4 files: 1 extreme, 1 not extreme, 1 refused, 1 not read"
        )
        self.assertIn("3 of 4 files", errors)
        self.assertEqual(front("extreme", *files[:3])[0], 3)
        self.assertEqual(
            front("check", "check/extreme/input", "check/minimal_rejected/input")[0], 1
        )

    def test_a_refusal_has_the_line_the_place_and_a_sentence(self):
        status, said, _ = front("minimal", "minimal/breaks_descending/input")
        lines = said.splitlines()
        self.assertEqual(status, 3)
        self.assertRegex(lines[0], r"^minimal/breaks_descending/input, line \d+: refused, break$")
        self.assertRegex(lines[1], r"^    point ")
        self.assertIn("Sort the lines `point` by their places.", lines[2])

    def test_help_and_version(self):
        status, said, _ = front("--help")
        self.assertEqual(status, 0)
        for command in command_line.COMMANDS:
            self.assertIn(command, said)
            self.assertEqual(front(command, "--help")[0], 0)
        status, said, _ = front("--version")
        self.assertEqual(
            (status, [line.split()[0] for line in said.splitlines()]),
            (0, ["gjcut", "commit", "kit", "library"]),
        )

    def test_without_a_library_there_is_a_sentence(self):
        environment = {**os.environ, "PYTHONPATH": str(PACKAGES), "GJCUT_LIBRARY": "/no/such/file"}
        done = subprocess.run(
            [sys.executable, "-m", "gjcut", "demo", "1"],
            env=environment,
            capture_output=True,
            text=True,
            check=False,
        )
        self.assertEqual((done.returncode, done.stdout, done.stderr.count("\n")), (14, "", 1))

    def test_explain(self):
        for example in sorted(EXAMPLES.glob("check/*/input")):
            status, said, errors = front("explain", str(example))
            wanted = int((example.parent / "status").read_text())
            self.assertEqual((status, errors), (wanted, ""), example)
            if wanted < 2:
                for line in re.split("\n(?=  )", said)[2 - ("rule gmic" in said) :]:
                    self.assertRegex(line, r"^ *\d+  \S.*  \S", example)
        said = front("explain", "check/extreme/input")[1]
        self.assertIn("so [0, 1/5], on which it projects, is covered, and begins component 0", said)


if __name__ == "__main__":
    unittest.main()
