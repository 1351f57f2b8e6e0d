"""Sentences about the text of a derivation, which `check` and `derive` read."""
from ._function_sentences import FIVE, LINE, five
from ._sentence import Sentence

HEAD = "gj-derivation 1\n"
X = "column x whole 0 -\n"
C = "constraint c <= 7/2\n"
E = "entry x 1\n"
STEP = "step s linear\n"
BY = "by c -1\n"
CLAIM = "claim -3\nterm x -1\n"
DERIVATION = HEAD + X + C + E + STEP + BY + CLAIM + "end\n"
# Lines of the problem, and where a line stands behind the first step.
PROBLEM_LINE, IN_STEPS = r"^\s*(column|constraint|entry)\b", r"^\s*step\b[\s\S]*"


def derivation(old: str, new: str) -> str:
    assert old in DERIVATION
    return DERIVATION.replace(old, new, 1)


DERIVATION_SENTENCES = [
    # ---- form
    Sentence(
        see="`form` from `check`, one line after a function",
        means="this is a function, and no proof or derivation",
        do="let `extreme` or `minimal` write the proof, and hand that to `check`",
        words="check", input=FIVE, answer="refused line 6 form",
        when=LINE + "form", is_past=True, around=r"\A\s*end\n",
    ),
    Sentence(
        see="`form` in a derivation, in its first line",
        means="the derivation does not begin with the line `gj-derivation 1`",
        do="write it in front of the columns; a function in front of it ends with the line `end`",
        words="check", input=derivation("ion 1", "ion 2"), answer="refused line 1 form",
        when=LINE + "form", around=r"\A\n|\A\s*end\n",
    ),
    Sentence(
        see="`form` in a derivation, one line after the last",
        means="the line `end` is missing",
        do="write it after the last step",
        words="check", input=derivation("end\n", ""), answer="refused line 9 form",
        when=LINE + "form", is_past=True,
    ),
    Sentence(
        see="`form` in a derivation, at `column`, `constraint` or `entry` after a step",
        means="all columns and constraints stand before the first step",
        do="put it before the first line `step`; what a step claims is known to the later ones",
        words="check", input=derivation("end", X + "end"), answer="refused line 9 form",
        when=LINE + "form", line=PROBLEM_LINE, text=IN_STEPS + PROBLEM_LINE,
    ),
    Sentence(
        see="`form` in a derivation, at `column`",
        means=(
            "a column has a name, `whole` or `continuous`, and two bounds; its name has 1 to 255 "
            "visible ASCII bytes, no blank and no `\"`"
        ),
        do="write `column x whole 0 -`, with `-` for a bound that is not there",
        words="check", input=derivation("0 -", "0"), answer="refused line 2 form",
        when=LINE + "form", line=r"^\s*column\b",
    ),
    Sentence(
        see="`form` in a derivation, at `constraint`",
        means="a constraint has a name, `<=`, `>=` or `=`, and its right side",
        do="write `constraint c <= 7/2`, and its entries in lines of their own",
        words="check", input=derivation("<=", "<"), answer="refused line 3 form",
        when=LINE + "form", line=r"^\s*constraint\b",
    ),
    Sentence(
        see="`form` in a derivation, at `entry`",
        means="an entry has the name of its column and a value, and stands after its constraint",
        do="write `entry x 1` after the line `constraint`",
        words="check", input=derivation(C, ""), answer="refused line 3 form",
        when=LINE + "form", line=r"^\s*entry\b",
    ),
    Sentence(
        see="`form` in a derivation, at `upper`, `sum` or `round` before the first step",
        means="a problem text has such lines, and a derivation has steps",
        do="write a step, with a line `by` for each multiplier, and `upper` inside of it",
        words="check", input=derivation(STEP, "sum -1\n" + STEP), answer="refused line 5 form",
        when=LINE + "form", line=r"^\s*(upper|sum|round)\b",
        around=r"\A\s*(gj-derivation|column|constraint|entry|upper|sum|grid|round)\b",
    ),
    Sentence(
        see="`form` in a derivation, at `grid`",
        means="a grid rounds what `derive` finds; `check` reads no grid, since all claims are there",
        do="leave it out; for `derive` write it once, before the first step",
        words="check", input=derivation(STEP, "grid 4\n" + STEP), answer="refused line 5 form",
        when=LINE + "form", line=r"^\s*grid\b",
    ),
    Sentence(
        see="`form` in a derivation, at `step` or `end` after a step without `claim`",
        means="the step before claims nothing",
        do="write `claim` and its terms, or let `derive` fill them in",
        words="check", input=derivation(CLAIM, ""), answer="refused line 7 form",
        when=LINE + "form", line=r"^\s*(step|end)\b", around=r"\A\s*(step|by|upper|times)\b",
    ),
    Sentence(
        see="`form` in a derivation, at a step by the rule `function`",
        means="no function stands in front of the derivation",
        do="write its text before the line `gj-derivation 1`, or take the rule `gmic`",
        words="check", input=derivation("linear", "function"), answer="refused line 5 form",
        when=LINE + "form", line=r"^\s*step\s+\S+\s+function\s*$",
    ),
    Sentence(
        see="`form` in a derivation, at `step`",
        means="a step has a name and a rule, which is `linear`, `gmic` or `function`",
        do="write `step a gmic`",
        words="check", input=derivation("linear", "sum"), answer="refused line 5 form",
        when=LINE + "form", line=r"^\s*step\b",
    ),
    Sentence(
        see="`form` in a derivation, at `upper` in a `linear` step",
        means="no column is turned in a sum",
        do="leave it out, or take the rule `gmic`",
        words="check", input=derivation(BY, BY + "upper x\n"), answer="refused line 7 form",
        when=LINE + "form", line=r"^\s*upper\s+\S+\s*$",
        text=r"^\s*step\s+\S+\s+linear\s*\n(\s*(by|upper|times)\b.*\n)*\s*upper\b",
    ),
    Sentence(
        see="`form` in a derivation, at `term`",
        means="a term has the name of its column and a value, and stands after the line `claim`",
        do="write `claim -3` before the first `term`",
        words="check", input=derivation("claim -3\n", ""), answer="refused line 7 form",
        when=LINE + "form", line=r"^\s*term\b",
    ),
    Sentence(
        see="`form` in a derivation, at `by`, `upper`, `times` or `claim`",
        means=(
            "the line has a word too many or too few, or stands after the line `claim`; or it is a "
            "second `times` or `claim`"
        ),
        do="write `by c -1`, `upper x`, `times 12`, and last `claim -3`",
        words="check", input=derivation("end", BY + "end"), answer="refused line 9 form",
        when=LINE + "form", line=r"^\s*(by|upper|times|claim)\b",
    ),
    Sentence(
        see="`form` in a derivation, at another line",
        means="no line of a derivation has these words",
        do="look at [Derivation](#derivation)",
        words="check", input=derivation(BY, "of c -1\n"), answer="refused line 6 form",
        when=LINE + "form",
    ),
    # ---- numbers
    Sentence(
        see="`number` in a derivation, at `times`",
        means="an inequality is multiplied by a number above 0",
        do="leave the line out for 1; multiply the multipliers for another sum",
        words="check", input=derivation(BY, BY + "times 0\n"), answer="refused line 7 number",
        when=LINE + "number", line=r"^\s*times\s+[-+]?[0-9./]+\s*$",
    ),
    Sentence(
        see="`number` in a derivation, at `claim -`",
        means="the claim has no right side",
        do="let `derive` fill it in, with the greatest one",
        words="check", input=derivation("claim -3", "claim -"), answer="refused line 7 number",
        when=LINE + "number", line=r"^\s*claim\s+-\s*$",
    ),
    Sentence(
        see="`number` in a derivation, at `grid`",
        means="a grid is a whole number from 1 to 4,294,967,295",
        do="take 1048576, which is 2^20: all coefficients are then multiples of 1/2^20",
        words="derive", input=derivation(STEP, "grid 0\n" + STEP), answer="refused line 5 number",
        when=LINE + "number", line=r"^\s*grid\b",
    ),
    Sentence(
        see="`number` in a derivation, at a long number",
        means="its numerator or its denominator, as it is written, is above 2^127 - 1",
        do="claim less: any number at most the right side that is shown, and round multipliers",
        words="check", input=derivation("by c -1", "by c -1/" + "9" * 39),
        answer="refused line 6 number",
        when=LINE + "number", line=r"\d{38}",
    ),
    Sentence(
        see="`number` in a derivation",
        means=(
            "a word is no number where one belongs: it has a decimal comma, no digits on one side "
            "of its point, or is a name; or its value does not fit, as that of `1e-40`"
        ),
        do="write `0.001`, `1/1000` or `1e-3`, as in `term x 1e-3`; a bound that is not there is `-`",
        words="check", input=derivation("7/2", "35e-40"), answer="refused line 3 number",
        when=LINE + "number",
    ),
    # ---- limits and names
    Sentence(
        see="`large` in a derivation",
        means=(
            "there are more than 10,000 columns, 10,000 constraints, 10,000 steps or 100,000 "
            "entries of constraints"
        ),
        do="leave out what no step names, and the columns without entries",
        words="check", input=HEAD + X + C + E * 100_001, answer="refused line 100004 large",
        when=LINE + "large",
    ),
    Sentence(
        see="`place` in a derivation, at `column`, `constraint` or `step`",
        means="the name stands already: two columns, or two of all constraints and steps, have it",
        do="give each its own",
        words="check", input=derivation("step s", "step c"), answer="refused line 5 place",
        when=LINE + "place", line=r"^\s*(column|constraint|step)\b",
    ),
    Sentence(
        see="`place` in a derivation, at `by`",
        means=(
            "no constraint and no earlier step has this name, or the step has a multiplier for it "
            "already"
        ),
        do="correct the name; put the step before that names it, or add the two multipliers up",
        words="check", input=derivation("by c", "by s"), answer="refused line 6 place",
        when=LINE + "place", line=r"^\s*by\b",
    ),
    Sentence(
        see="`place` in a derivation, at `entry`, `upper` or `term`",
        means="no column before it has this name, or the step names it so already",
        do="correct the name; in a step each column has one term",
        words="check", input=derivation("term x", "term y"), answer="refused line 8 place",
        when=LINE + "place",
    ),
    # ---- the function, and the end
    Sentence(
        see="`no function VIOLATION` of a derivation",
        means="the function in front is not minimal, and its cuts need not hold",
        do="see what `minimal` says of it, or take the rule `gmic`",
        words="check",
        input=five("point 3/5 1", "point 3/5 9/10") + DERIVATION,
        answer="no function asymmetric 0",
        when="no function .*",
    ),
    Sentence(
        see="`not continuous X` of a derivation",
        means="the function in front jumps at X, and has no slope there for a continuous column",
        do="take a continuous function, often by a breakpoint more",
        words="check",
        input="gj-function 1\nfamily half 1/2\nend\n" + DERIVATION,
        answer="not continuous 0",
        when="not continuous .*",
    ),
    Sentence(
        see="`tail` in a derivation",
        means="something follows the line `end`",
        do="leave it out, or begin each such line with `#`",
        words="check", input=DERIVATION + STEP, answer="refused line 10 tail",
        when=LINE + "tail",
    ),
]
