"""Sentences about the text of a problem, which the command `problem` reads."""
from ._function_sentences import LINE, five
from ._sentence import Sentence

WORDS = "problem"
HEAD = "gj-problem 1\nrule gmic\n"
X = "column x whole 0 -\n"
C = "constraint c <= 7/2\n"
E = "entry x 1\n"
ROWS = X + C + E + "sum 1\nend\n"
PROBLEM = HEAD + ROWS


def problem(old: str, new: str) -> str:
    assert old in PROBLEM
    return PROBLEM.replace(old, new, 1)


PROBLEM_SENTENCES = [
    Sentence(
        see="`form` in a problem, in its first lines",
        means=(
            "the problem does not begin with the lines `gj-problem 1` and `rule gmic`, or, after a "
            "function, with the first alone"
        ),
        do="write them in front of the columns, in small letters",
        words=WORDS, input=X + C + E, answer="refused line 1 form",
        when=LINE + "form", around=r"\A\n|\A\s*gj-problem",
    ),
    Sentence(
        see="`form` in a problem, one line after the last",
        means="the line `end` is missing",
        do="write it after the last line",
        words=WORDS, input=problem("end\n", ""), answer="refused line 7 form",
        when=LINE + "form", is_past=True,
    ),
    Sentence(
        see="`form` in a problem, at `column`",
        means=(
            "a column has a name, `whole` or `continuous`, and two bounds; its name has 1 to 255 "
            "visible ASCII bytes, no blank and no `\"`"
        ),
        do="write `column x whole 0 -`, with `-` for a bound that is not there",
        words=WORDS, input=problem("0 -", "0"), answer="refused line 3 form",
        when=LINE + "form", line=r"^\s*column\b",
    ),
    Sentence(
        see="`form` in a problem, at `constraint` or `entry` after `sum` or `upper`",
        means="all constraints and entries stand before the first `sum` and the first `upper`",
        do="put it before these lines",
        words=WORDS, input=problem("end", C + "end"), answer="refused line 7 form",
        when=LINE + "form", line=r"^\s*(constraint|entry)\b",
        text=r"^\s*(sum|upper)\b[\s\S]*^\s*(constraint|entry)\b",
    ),
    Sentence(
        see="`form` in a problem, at `constraint`",
        means="a constraint has a name, `<=`, `>=` or `=`, and its right side",
        do="write `constraint c <= 7/2`, and its entries in lines of their own",
        words=WORDS, input=problem("<=", "<"), answer="refused line 4 form",
        when=LINE + "form", line=r"^\s*constraint\b",
    ),
    Sentence(
        see="`form` in a problem, at `entry`",
        means="an entry has the name of its column and a value, and stands after its constraint",
        do="write `entry x 1` after the line `constraint`",
        words=WORDS, input=problem(C, ""), answer="refused line 4 form",
        when=LINE + "form", line=r"^\s*entry\b",
    ),
    Sentence(
        see="`form` in a problem, at `sum`",
        means="there are not as many multipliers as constraints",
        do="give each constraint one, in their order: 0 to one that is not in the sum",
        words=WORDS, input=problem("sum 1", "sum 1 1"), answer="refused line 6 form",
        when=LINE + "form", line=r"^\s*sum\b",
    ),
    Sentence(
        see="`form` in a problem, at another line",
        means=(
            "no line of a problem has these words; or it is a second `grid` or `round`, or has a "
            "word too many or too few"
        ),
        do="look at [Problem text and its cuts](#problem-text-and-its-cuts)",
        words=WORDS, input=problem("end", "grid 4\ngrid 4\nend"), answer="refused line 8 form",
        when=LINE + "form",
    ),
    Sentence(
        see="`number` in a problem, at `grid` or `round`",
        means="a grid is a whole number from 1 to 4,294,967,295",
        do="take 1048576, which is 2^20: all numbers are then multiples of 1/2^20",
        words=WORDS, input=problem("end", "grid 0\nend"), answer="refused line 7 number",
        when=LINE + "number", line=r"^\s*(grid|round)\b",
    ),
    Sentence(
        see="`number` in a problem, at a long number",
        means="its numerator or its denominator, as it is written, is above 2^127 - 1",
        do="scale the constraint, or take a multiplier with fewer digits: any gives a cut",
        words=WORDS, input=problem("sum 1", "sum 1/" + "9" * 39), answer="refused line 6 number",
        when=LINE + "number", line=r"\d{38}",
    ),
    Sentence(
        see="`number` in a problem, at `column`",
        means="a bound is no number: `inf` is none, and `1e20` is the number 10^20",
        do="write `-` for a bound that is not there",
        words=WORDS, input=problem("0 -", "0 inf"), answer="refused line 3 number",
        when=LINE + "number", line=r"^\s*column\b",
    ),
    Sentence(
        see="`number` in a problem",
        means=(
            "a word is no number where one belongs: it has a decimal comma, no digits on one side "
            "of its point, or is a name; or its value does not fit, as that of `1e-40`"
        ),
        do="write `0.001`, `1/1000` or `1e-3`, as in `entry x 1e-3`",
        words=WORDS, input=problem("7/2", "35e-40"), answer="refused line 4 number",
        when=LINE + "number",
    ),
    Sentence(
        see="`large` in a problem, at `sum`",
        means=(
            "the sums up to it would take too long: their number, times that of the columns, "
            "constraints and entries together, is above 10^9"
        ),
        do="give each part of the sums a text of its own; leave out columns without entries",
        words=WORDS, input=HEAD + X + C + E * 24_998 + "sum 1\n" * 40_001,
        answer="refused line 65003 large", when=LINE + "large", line=r"^\s*sum\b",
    ),
    Sentence(
        see="`large` in a problem",
        means="there are more than 10,000 columns, 10,000 constraints or 100,000 entries",
        do="leave out the constraints whose multipliers are 0, and the columns without entries",
        words=WORDS, input=HEAD + C * 10_001, answer="refused line 10003 large",
        when=LINE + "large",
    ),
    Sentence(
        see="`place` in a problem, at `column`",
        means="two columns have one name",
        do="give each its own",
        words=WORDS, input=problem(X, X + X), answer="refused line 4 place",
        when=LINE + "place", line=r"^\s*column\b",
    ),
    Sentence(
        see="`place` in a problem, at `entry` or `upper`",
        means="no column before it has this name",
        do="correct the name, or give the column a line before it",
        words=WORDS, input=problem("entry x", "entry y"), answer="refused line 5 place",
        when=LINE + "place",
    ),
    Sentence(
        see="`no function VIOLATION` of a problem",
        means="the function in front is not minimal, and its cuts need not hold",
        do="see what `minimal` says of it, or take the line `rule gmic`",
        words=WORDS,
        input=five("point 3/5 1", "point 3/5 9/10") + HEAD[:13] + ROWS,
        answer="no function asymmetric 0",
        when="no function .*",
    ),
    Sentence(
        see="`not continuous X` of a problem",
        means="the function in front jumps at X, and has no slope there for a continuous column",
        do="take a continuous function, often by a breakpoint more",
        words=WORDS,
        input="gj-function 1\nfamily half 1/2\nend\n" + HEAD[:13] + ROWS,
        answer="not continuous 0",
        when="not continuous .*",
    ),
    Sentence(
        see="`tail` in a problem",
        means="something follows the line `end`",
        do="leave it out, or begin each such line with `#`",
        words=WORDS, input=PROBLEM + "sum 1\n", answer="refused line 8 tail",
        when=LINE + "tail",
    ),
]
