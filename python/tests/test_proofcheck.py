"""The checkers in plain Python, which need no library: on the examples of `check`, on what the
program writes in others, and on derivations made of the examples of `problem`."""
import math
import re
import subprocess
import sys
import tempfile
import unittest
from fractions import Fraction
from pathlib import Path

from gjcut import derivationcheck, proofcheck
from gjcut.sentences import is_derivation

TOP = Path(__file__).resolve().parents[2]
EXAMPLES = TOP / "examples"
# 2x + y <= 7 and x + 3y - z <= 9: two cuts, and a sum of both, by which 4x + 5y - 2z is at most 19.
# At x = 2, y = 3, z = 2 it is 19.
CHAIN = """\
gj-derivation 1
column x whole 0 -
column y whole 0 -
column z continuous 0 -
constraint first <= 7
entry x 2
entry y 1
constraint second <= 9
entry x 1
entry y 3
entry z -1
step a gmic
by first 3/5
by second -1/5
claim -20/3
term x -5/3
term y -5/3
term z 5/6
step b gmic
by first -1/5
by second 2/5
claim -75/4
term x -5/2
term y -25/4
term z 5/2
step best linear
by a 6/5
by b 2/5
by first -1/2
claim -19
term x -4
term y -5
term z 2
end
"""


def answer(text):
    status, said = proofcheck.check(text.encode())
    return status, said


def checked(data, said):
    """What the plain checker says of a text of which the program says this. It has numbers of any
    size, and does not name the violation of a function in front."""
    if not is_derivation(data.decode("latin-1")):
        return proofcheck.check(data)
    found = derivationcheck.check(data)
    if found[0] == 0 and said.endswith(" wide"):
        return 1, said
    return (9, said) if found == (9, "no function") and said.startswith(found[1]) else found


class Proofs(unittest.TestCase):
    def test_the_examples_of_check(self):
        tried = 0
        for example in sorted(EXAMPLES.glob("check/*")):
            status = int((example / "status").read_text())
            said = (example / "output").read_text().strip()
            found = checked((example / "input").read_bytes(), said)
            self.assertEqual(found, (status, said), example.name)
            tried += 1
        self.assertGreater(tried, 60)

    def test_altered_examples(self):
        for line in (EXAMPLES / "altered").read_text().splitlines():
            words, example, script, status, said = (line.split("\t") + [""] * 5)[:5]
            if words == "check":
                command = ["sed", script, str(EXAMPLES / example / "input")]
                text = subprocess.run(command, stdout=subprocess.PIPE, check=True).stdout
                self.assertEqual(checked(text, said), (int(status), said), line)

    def test_what_the_program_writes_is_accepted(self):
        tried = 0
        for output in sorted(EXAMPLES.glob("*/*/output")):
            text = output.read_bytes()
            is_derived = output.parent.match("derive/*") and text.startswith(b"gj-")
            if is_derived or text.startswith(b"gj-proof"):
                self.assertEqual(checked(text, "")[0], 0, output.parent)
                tried += 1
        self.assertGreater(tried, 50)

    def test_a_text_3_is_of_two_claims_and_has_columns_of_its_own(self):
        jumps = (EXAMPLES / "check/jumps_strong_fractional/input").read_text()
        for old, new, said in (
            ("claim extreme", "claim cut", "refused line 2 form"),
            # The unknowns are the four other values and the five limits from the right, columns
            # 0 to 8, and one slope.
            ("row 0 4 +-0\nreduce 1\npivot 2\n", "", "rejected line 40 rank"),
            ("pivot 9", "pivot 10", "rejected line 36 pivot"),
            ("row 0 0 +++\npivot 8\n", "", "rejected line 33 reduce"),
        ):
            self.assertIn(old, jumps)
            self.assertEqual(answer(jumps.replace(old, new, 1))[1], said, (old, new))
        # Two values, two limits from the right and two slopes, less the value at 0.
        continuous = (EXAMPLES / "check/jumps_text_of_continuous/input").read_text()
        self.assertEqual(continuous.count("pivot "), 5)
        self.assertEqual(answer(continuous), (0, "accepted extreme"))

    def test_three_words_that_are_one(self):
        halves = (EXAMPLES / "check/jumps_not_extreme/input").read_text()
        for words, said in (
            ("pair 1 1 1 2 2 2", "refused line 9 form"),
            ("pair x x x y y y", "refused line 9 form"),
            ("pair 1 1 1 2 2 3", "rejected line 9 average"),
            ("pair 1 1 01 2 2 2", "refused line 9 number"),
        ):
            self.assertEqual(answer(halves.replace("pair 42 0 0 30 0 0", words))[1], said, words)
        points = halves.replace("point 1 1 2/5", "point 2/4 2/4 2/4")
        self.assertEqual(answer(points)[1], "refused line 6 form")

    def test_the_command(self):
        with tempfile.TemporaryDirectory() as folder:
            file = Path(folder) / "text"
            file.write_bytes((EXAMPLES / "check/jumps_not_extreme/input").read_bytes())
            for words, status, said in (
                ([file], 0, "accepted not-extreme\n"),
                ([Path(folder) / "none"], 4, None),
                ([], 2, None),
            ):
                command = [sys.executable, "-I", proofcheck.__file__, *map(str, words)]
                done = subprocess.run(command, capture_output=True, text=True, check=False)
                self.assertEqual((done.returncode, done.stderr), (status, ""))
                self.assertIn(said or done.stdout, done.stdout)
            self.assertTrue(proofcheck.__doc__.startswith("This checker is no proof."))


class Derivations(unittest.TestCase):
    def check(self, text):
        return derivationcheck.check(text.encode())

    def test_a_chain(self):
        self.assertEqual(self.check(CHAIN), (0, "accepted derivation"))
        for old, new, said in (
            ("claim -19", "claim -18", "rejected line 26 right -19"),
            ("by a 6/5", "by a -6/5", "rejected line 26 sign a"),
            ("by first -1/2", "by first 1/2", "rejected line 26 sign first"),
            ("claim -20/3", "claim -19/3", "rejected line 12 right -20/3"),
            ("by first 3/5\nby second -1/5", "by first 1", "rejected line 12 integral"),
            ("z continuous 0 -", "z continuous - -", "rejected line 12 free z"),
            # The sum has -6/5 * 5/3 - 2/5 * 5/2 - 1/2 * 2 = -4 at x, which has no upper bound.
            ("term x -4\nterm y -5", "term x -5\nterm y -5", "rejected line 26 bound x"),
            ("term x -4\nterm y -5", "term x -3\nterm y -5", "accepted derivation"),
            ("by a 6/5", "by c 6/5", "refused line 27 place"),
            ("by a 6/5", "by best 6/5", "refused line 27 place"),
            ("step best linear\n", "step best linear\nupper x\n", "refused line 27 form"),
            ("step best linear", "step best function", "refused line 26 form"),
            ("step best linear\n", "step best linear\ntimes 0\n", "refused line 27 number"),
            ("step best", "step a", "refused line 26 place"),
            ("claim -19\n", "", "refused line 30 form"),
            ("end\n", "", "refused line 34 form"),
            ("end\n", "end\nstep\n", "refused line 35 tail"),
        ):
            self.assertIn(old, CHAIN)
            self.assertEqual(self.check(CHAIN.replace(old, new, 1))[1], said, (old, new))

    def test_whole_terms_are_rounded_up(self):
        # Chvátal: twice x + y <= 7/2 is 2x + 2y <= 7, so x + y <= 3; and of 0 >= 1/3 0 >= 1.
        text = (
            "gj-derivation 1\ncolumn x whole 0 -\ncolumn y whole - -\nconstraint c <= 7/2\n"
            "entry x 1\nentry y 1\nstep s linear\nby c -1\nclaim {}\nterm x -1\nterm y -1\nend\n"
        )
        self.assertEqual(self.check(text.format(-3)), (0, "accepted derivation"))
        self.assertEqual(self.check(text.format("-5/2")), (1, "rejected line 7 right -3"))
        text = (
            "gj-derivation 1\nconstraint c >= 1/3\nstep s linear\nby c 1\nclaim {}\nend\n"
        )
        self.assertEqual(self.check(text.format(1)), (0, "accepted derivation"))
        self.assertEqual(self.check(text.format(2)), (1, "rejected line 3 right 1"))

    def test_the_cuts_of_problems_are_shown_exactly(self):
        tried = 0
        for example in sorted(EXAMPLES.glob("problem/*")):
            text, said = (example / "input").read_text(), (example / "output").read_text()
            is_exact = "\ngrid " not in text and "\nround " not in text
            if int((example / "status").read_text()) or not is_exact or "wide" in said:
                continue
            for chain, wanted in chains(text, said):
                self.assertEqual(self.check(chain), wanted, f"{example.name}\n{chain}")
                tried += 1
        self.assertGreater(tried, 25)

    def test_function_texts_are_read_as_the_program_reads_them(self):
        tried = 0
        for example in sorted(EXAMPLES.glob("*/*/words")):
            folder, words = example.parent, example.read_text().split()
            text, said = (folder / "input").read_bytes(), (folder / "output").read_text().strip()
            is_read = words in (["minimal"], ["show"], ["extreme"], ["fill"])
            if is_read and b"gj-function" in text and "tail" not in said:
                status = int((folder / "status").read_text())
                found = derivationcheck.check(text.rstrip() + b"\ngj-derivation 1\nend\n")
                if status == 3:
                    self.assertEqual(found, (3, said), folder)
                elif "claim not-minimal" in said:
                    self.assertEqual(found, (9, "no function"), folder)
                elif words == ["extreme"] and status == 8:
                    self.assertEqual(found, (8, said), folder)
                elif words[0] in ("minimal", "extreme"):
                    self.assertIn(found[0], (0, 8), folder)
                tried += 1
        self.assertGreater(tried, 60)


def cuts_in(said):
    """The cuts in an answer of `problem`: the words of the first line of each, and its terms."""
    found = []
    for line in said.splitlines():
        if line.startswith(("cut ", "skip ")):
            found.append((line.split(), []))
        elif line.startswith("term "):
            found[-1][1].append(line)
    return found


def chains(text, said):
    """Of each cut of a problem two derivations with one step: one claims it, the other more. They
    have a name for each constraint."""
    front, _, problem = text.partition("gj-problem 1\n")
    program, sums, at_upper, names = ["gj-derivation 1"], [], [], []
    for line in problem.splitlines():
        words = line.split() or ["#"]
        if words[0] == "constraint":
            names.append(f"c{len(names)}")
            words[1] = names[-1]
        if words[0] in ("column", "constraint", "entry"):
            program.append(" ".join(words))
        elif words[0] == "upper":
            at_upper.append(line)
        elif words[0] == "sum":
            sums.append((words[1:], list(at_upper)))
    whole = {line.split()[1] for line in program if re.match("column .* whole ", line)}
    for (multipliers, uppers), (head, terms) in zip(sums, cuts_in(said)):
        by = [f"by {name} {m}" for name, m in zip(names, multipliers)]
        step = [f"step s {'function' if front else 'gmic'}", *by, *uppers]
        at = front.count("\n") + len(program) + 1

        def chain(claim):
            return front + "\n".join([*program, *step, f"claim {claim}", *terms, "end", ""])

        if head[0] == "skip":
            yield chain(0), (1, f"rejected line {at} {' '.join(head[1:])}")
            continue
        right, entries = Fraction(head[1]), [term.split()[1:] for term in terms]
        is_whole = all(name in whole and "/" not in value for name, value in entries)
        shown = Fraction(math.ceil(right)) if is_whole else right
        yield chain(right), (0, "accepted derivation")
        more = shown + Fraction(1, 1000)
        yield chain(more), (1, f"rejected line {at} right {shown}")


if __name__ == "__main__":
    unittest.main()
