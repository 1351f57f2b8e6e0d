"""Twenty faulty inputs, as someone new to the texts writes them: what the sentence says, and the
input as it was mended after reading that alone."""
import contextlib
import io
import tempfile
import unittest
from pathlib import Path

from gjcut import command_line

TWO = "gj-function 2\nf 4/5\npoint 0 0\npoint 4/5 1\nend\n"
ONE = "gj-function 1\norder 5\nf 4/5\npoint 0\npoint 1/4\npoint 1/2\npoint 3/4\npoint 1\nend\n"
JUMP = "gj-function 2\nf 2/3\npoint 0 0 0 1/2\npoint 2/3 1\nend\n"
THIRD = "gj-function 2\nf 1/3\npoint 0 0\npoint 1/3 1\nend\n"
CUT = "gj-rule 1\ngmic\nend\nbasic,rhs,x1,x2\nx0,2.5,0.5,1\n"
NAMES = CUT.replace("x1", '"x(1,2)"')
MIXED = "gj-rule 1\ngmic\nend\nbasic,rhs,x1,c:y\nx0,2.5,1/6,0.001\n"
SLOPES = "gj-function 1\nfamily two-slope 2 ++--\nend\n"
PROOF = "gj-proof 1\nclaim minimal\norder 2\nf 1/2\npoint 0\npoint 1\nend\n"

# The command, the input, words of the sentence, and the input as mended. Where two faults stand in
# one input, the next reading told the second.
FAULTY = [
    ("minimal", TWO.replace("f ", "f = "), "without a sign", TWO),
    (
        "minimal",
        TWO.replace("0 0", "0, 0").replace("5 1", "5, 1"),
        "nothing but blanks between numbers",
        TWO,
    ),
    (
        "minimal",
        TWO.replace("gj-function 2\n", "").replace("end\n", ""),
        "The first line is missing",
        TWO,
    ),
    ("minimal", TWO.replace("end", "point 1 0\nend"), "Leave this line out", TWO),
    (
        "minimal",
        TWO.replace("f 4/5", "f 0.8").replace("point 4/5", "point .8"),
        "Digits stand on both sides",
        TWO,
    ),
    (
        "minimal",
        JUMP.replace("point 0 0 0 1/2", "point 0 0\npoint 0 1/2"),
        "A jump is written as two points",
        JUMP,
    ),
    ("extreme", ONE.replace("gj-function 1", "gj-function 2"), "or write `gj-function 1`", ONE),
    ("extreme", ONE.replace("end", "point 0\nend"), "There is one point too many", ONE),
    ("minimal", THIRD.replace("1/3", "0.333333"), "Write the fraction that was meant", THIRD),
    ("minimal", TWO.replace("end\n", ""), "The line `end` is missing", TWO),
    (
        "minimal",
        TWO.replace("f 4/5", "F 4/5").replace("point", "POINT").replace("end", "END"),
        "in small letters",
        TWO,
    ),
    ("minimal", TWO.replace("0 0", "0 0   # start"), "Give the comment a line of its own", TWO),
    ("cut", CUT.replace(",", ";").replace(".", ","), "another separator than the comma", CUT),
    ("cut", CUT.replace("gj-rule 1\ngmic\nend\n", ""), "The rule or the function is missing", CUT),
    ("cut", NAMES.replace('"', ""), "names with commas in quotes", NAMES),
    (
        "mixed",
        MIXED.replace("1/6", "0.16666666666666666").replace("0.001", "1e-3"),
        "Write the fractions that were meant",
        MIXED,
    ),
    ("minimal", SLOPES.replace("2 ++--", "++-- 2"), "as `family two-slope 2 ++--`", SLOPES),
    ("check", PROOF.replace("1/2", "0.5"), "A number is not in its one spelling", PROOF),
    (
        "minimal",
        TWO.replace("point 0 0\npoint 4/5 1\n", "point 4/5 1\npoint 0 0\n"),
        "The first point is not at 0",
        TWO,
    ),
    (
        "minimal",
        TWO.replace("0 0", "0 0 0"),
        "After the place there are not one fraction or three",
        TWO,
    ),
]

PROBLEM = (
    "gj-problem 1\nrule gmic\ncolumn x whole 0 -\nconstraint c <= 7/2\nentry x 1\nsum 1\nend\n"
)

# A problem, an old word of it, the faulty one, and words of the sentence.
FAULTY_PROBLEMS = [
    ("whole", "integer", "has a name, `whole` or `continuous`, and two bounds"),
    ("0 -", "0 inf", "Write `-` for a bound that is not there"),
    ("column x", "column x 1", "no blank"),
    ("<=", "=<", "`<=`, `>=` or `=`, and its right side"),
    ("c <=", "<=", "A constraint has a name"),
    ("7/2", "3,5", "a decimal comma"),
    ("entry x 1", "entry 1 x", "or is a name"),
    ("constraint c <= 7/2\n", "", "stands after its constraint"),
    ("entry x", "entry X", "Correct the name"),
    ("sum 1", "sum", "not as many multipliers as constraints"),
    ("sum 1", "sum 1e-40", "Write `0.001`, `1/1000` or `1e-3`"),
    ("rule gmic\n", "", "does not begin with the lines `gj-problem 1` and `rule gmic`"),
    ("end\n", "", "The line `end` is missing"),
    ("end\n", "end\nsum 1\n", "Something follows the line `end`"),
]


class Faulty(unittest.TestCase):
    def answer(self, command, text):
        said = io.StringIO()
        with tempfile.TemporaryDirectory() as folder, contextlib.redirect_stdout(said):
            file = Path(folder) / "input"
            file.write_text(text)
            status = command_line.main([command, str(file)])
        return status, " ".join(said.getvalue().split())

    def test_each_is_refused_with_its_sentence_and_answered_when_mended(self):
        self.assertEqual(len(FAULTY), 20)
        for command, faulty, sentence, mended in FAULTY:
            status, said = self.answer(command, faulty)
            self.assertEqual(status, 3, faulty)
            self.assertIn(sentence, said)
            self.assertEqual(self.answer(command, mended)[0], 0, mended)

    def test_problems(self):
        self.assertEqual(self.answer("problem", PROBLEM), (0, "sum 1: at each feasible point -2 x >= -6"))
        for old, new, words in FAULTY_PROBLEMS:
            faulty = PROBLEM.replace(old, new, 1)
            status, said = self.answer("problem", faulty)
            self.assertEqual(status, 3, faulty)
            self.assertIn(words, said, faulty)


if __name__ == "__main__":
    unittest.main()
