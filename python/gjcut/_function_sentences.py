"""Sentences about words, and about what stands in a function."""
from ._sentence import Sentence

FIVE = "gj-function 2\nf 3/5\npoint 0 0\npoint 3/5 1\nend\n"
VALUES = "gj-function 1\norder 2\nf 1/2\npoint 0\npoint 1\nend\n"
GMIC = "gj-rule 1\ngmic\nend\n"
FINE_AT_END = "gj-function 2\nf 1/4\npoint 0 0\npoint 1/2 1/2147483647\nend\n"
PROOF = "gj-proof 1\nclaim minimal\norder 2\nf 1/2\npoint 0\npoint 1\nend\n"


def five(old: str, new: str) -> str:
    assert old in FIVE
    return FIVE.replace(old, new, 1)


def proof(old: str, new: str) -> str:
    assert old in PROOF
    return PROOF.replace(old, new, 1)


LINE = r"refused line \d+ "
RECORD = r"refused record \d+ "
# A command that reads a proof text, and one that does not.
CHECK, NO_CHECK = r"^check$", r"^(?!check$)"

# The numbers of commands.
TIMES, RESTRICT = "with N from 1 to 500 and J below N", "with D from 2 to 1,000"


def refused_words(means: str, do: str, words: str, see: str = "", command: str = "") -> Sentence:
    """A sentence about words that name no command; `see` is what more is seen."""
    refused = "words refused"
    return Sentence(f"`{refused}`{see}", means, do, words, FIVE, refused, refused, command)


FUNCTION_SENTENCES = [
    # ---- words
    refused_words(
        see=" from `times` or `restrict`, with the name of a file",
        means="a number is missing before the name of the file",
        do=f"write `python3 -m gjcut times N J FILE`, {TIMES}, or `restrict D FILE`, {RESTRICT}",
        words="times 3 five.txt", command=r"^(times|restrict)\b.*[./]",
    ),
    refused_words(
        see=", with the name of a file",
        means="the name of a file is no word of a command",
        do="write `gjcut minimal < FILE`, or `python3 -m gjcut minimal FILE`",
        words="minimal five.txt", command=r"[./]",
    ),
    refused_words(
        see=", with `--json` or `--jumps`",
        means="the word stands twice, or with a command that has no such word",
        do=(
            "write `--json` once, with `minimal`, `extreme` or `show`; `--jumps` once, with "
            "`extreme` or `faces`"
        ),
        words="minimal --jumps", command=r"--(json|jumps)\b",
    ),
    refused_words(
        means="this is no command, or a number is missing or outside its range",
        do=(
            f"look at the [commands](#words-answers-and-statuses): `times N J` {TIMES}, "
            f"`restrict D` {RESTRICT}, `demo N` with N from 1 to 249"
        ),
        words="times 3",
    ),
    # ---- the first line
    Sentence(
        see="`refused line 1 form`, though the line looks right",
        means="the file begins with a byte order mark, which is not seen",
        do="save it as plain ASCII, or as UTF-8 without that mark",
        words="minimal", input="\ufeff" + FIVE, answer="refused line 1 form",
        when="refused line 1 form", text=r"\A\ufeff",
    ),
    Sentence(
        see="`refused line 1 form`, though the line looks right",
        means="the file is UTF-16, as some editors save it",
        do="save it as plain ASCII, or as UTF-8",
        words="minimal",
        input="g\0j\0-\0f\0u\0n\0c\0t\0i\0o\0n\0 \0002\0\n\0",
        answer="refused line 1 form",
        when="refused line 1 form", text=r"\0",
    ),
    Sentence(
        see="`refused line 1 form`",
        means="the input is empty",
        do="hand the file over on standard input: `gjcut minimal < FILE`",
        words="minimal", input="", answer="refused line 1 form",
        when="refused line 1 form", text=r"\A\s*\Z",
    ),
    *(
        Sentence(
            see="`refused line 1 form` from `check`",
            means=f"this is what `{command}` writes: {what}, and no proof",
            do=do,
            words="check", input=f"gj-{word} 1\n{line}\nend\n", answer="refused line 1 form",
            when="refused line 1 form", command=CHECK, text=rf"\A\s*gj-{word}\b",
        )
        for command, word, what, line, do in (
            (
                "mixed", "mixed", "cuts of rows", "rule gmic",
                "let `mixed` make the cuts of the same rows again, and compare",
            ),
            (
                "problem", "safe", "cuts of a problem", "rule gmic",
                "write the program and the cut as a [derivation](#derivation) with one step",
            ),
            (
                "group", "group", "the decision of a table", "order 2",
                "ask `group` of the same function again, and compare",
            ),
            (
                "faces", "faces", "a list of additive faces", "order 2",
                "ask `faces` of the same function again, and compare",
            ),
        )
    ),
    Sentence(
        see="`refused line 1 form` from `check`",
        means="the proof was quoted in a mail, and `> ` stands at the front of its lines",
        do="take it off: `sed 's/^> //; s/ *$//'`",
        words="check", input=PROOF.replace("gj-", "> gj-"), answer="refused line 1 form",
        when="refused line 1 form", command=CHECK, text=r"\A\s*>",
    ),
    Sentence(
        see="`refused line 1 form` from `check`",
        means="something stands before the proof, or lines end with CR LF",
        do="let the file begin with `gj-proof 1`; `tr -d '\\r'` takes off each CR",
        words="check", input="\n" + PROOF, answer="refused line 1 form",
        when="refused line 1 form", command=CHECK,
    ),
    Sentence(
        see="`refused line 1 form`",
        means="this is a proof and no function",
        do=(
            "take the function out of it: `(echo gj-function 1; grep -E '^(order|f|point) ' FILE; "
            "echo end)`"
        ),
        words="minimal", input=PROOF, answer="refused line 1 form",
        when="refused line 1 form", text=r"\A\s*gj-proof",
    ),
    Sentence(
        see="`refused line 1 form`",
        means="this is a function in JSON",
        do="add the word `--json`",
        words="minimal", input='{"order": 2}', answer="refused line 1 form",
        when="refused line 1 form", text=r"\A\s*\{",
    ),
    Sentence(
        see="`refused line 1 form` from `cut` or `mixed`",
        means="the rule or the function is missing before the tableau",
        do="put the three lines `gj-rule 1`, `gmic` and `end` before it, or a function text",
        words="cut", input="basic,rhs,x1\nx0,1/2,1/3\n", answer="refused line 1 form",
        when="refused line 1 form", command=r"^(cut|mixed)$", text=r"\A[^\n]*,",
    ),
    Sentence(
        see="`refused line 1 form`",
        means="the first line is missing",
        do=(
            "begin with `gj-function 2` before breakpoints, with `gj-function 1` before values or "
            "the name of a family"
        ),
        words="minimal", input="f 3/5\npoint 0 0\nend\n", answer="refused line 1 form",
        when="refused line 1 form", line=r"^\s*(f|order|point|family)\b",
    ),
    Sentence(
        see="`refused line N form`, at the first line with words",
        means=(
            "it is neither `gj-function 1` nor `gj-function 2` (nor, for `cut` and `mixed`, "
            "`gj-rule 1`)"
        ),
        do="write that line, with one blank and nothing after it",
        words="minimal", input="gj_function 2\n", answer="refused line 1 form",
        when=LINE + "form", command=NO_CHECK, around=r"\A\n",
    ),
    # ---- lines of a function
    Sentence(
        see="`form` or `number`, at a line that looks right",
        means="a no-break space stands in it, as a copied text can have",
        do="write plain blanks in its place",
        words="minimal", input=five("f 3/5", "f\u00a03/5"), answer="refused line 2 form",
        when=LINE + "(form|number)", line="\u00a0",
    ),
    Sentence(
        see="`form` at a line with an equals sign or a colon",
        means="only blanks stand between the words of a line",
        do="write `f 3/5`, without a sign",
        words="minimal", input=five("f 3/5", "f = 3/5"), answer="refused line 2 form",
        when=LINE + "form", command=NO_CHECK, line=r"[=:]",
    ),
    Sentence(
        see="`form` or `number` at a line with `#`",
        means="a comment stands after a number",
        do="give the comment a line of its own",
        words="minimal",
        input=five("point 0 0", "point 0 0 # here"),
        answer="refused line 3 number",
        when=LINE + "(form|number)", command=NO_CHECK, line=r"\S\s*#",
    ),
    Sentence(
        see="`form`, one line after the last",
        means="the line `end` is missing",
        do="add it",
        words="minimal", input=five("end\n", ""), answer="refused line 5 form",
        when=LINE + "form", command=NO_CHECK, is_past=True,
    ),
    Sentence(
        see="`form` at a line `endbasic,..`",
        means="a line break is missing after `end`, before the tableau",
        do="add it",
        words="cut",
        input="gj-rule 1\ngmic\nendbasic,rhs,x1\nx0,1/2,1/3\n",
        answer="refused line 3 form",
        when=LINE + "form", command=r"^(cut|mixed)$", line=r"^end\S",
    ),
    Sentence(
        see="`form` at the second line of a rule",
        means="the one rule that has a name is `gmic`",
        do="write `gmic`, or a function text in place of the rule",
        words="cut", input="gj-rule 1\ngmi\nend\n", answer="refused line 2 form",
        when=LINE + "form", command=r"^(cut|mixed)$", text=r"\A\s*gj-rule 1",
    ),
    Sentence(
        see="`form` at the line `end` of a text 2",
        means="there is no line `point`",
        do="write one for each breakpoint, the first at 0",
        words="minimal", input="gj-function 2\nf 3/5\nend\n", answer="refused line 3 form",
        when=LINE + "form", line=r"^\s*end\s*$", text=r"^\s*gj-function\s+2",
    ),
    Sentence(
        see="`form` at the line `end` of a text 1",
        means="there are too few lines `point`: there are Q, for 0, 1/Q, .., and none for 1",
        do="count them, or write text 2",
        words="minimal", input=VALUES.replace("point 1\n", ""), answer="refused line 5 form",
        when=LINE + "form", line=r"^\s*end\s*$", text=r"^\s*gj-function\s+1",
    ),
    Sentence(
        see="`form` at a line `order` of a text 2",
        means="`order` stands in text 1 alone",
        do="leave the line out, or write `gj-function 1` and all values",
        words="minimal", input=five("f 3/5", "order 5\nf 3/5"), answer="refused line 2 form",
        when=LINE + "form", line=r"^\s*order\b", text=r"^\s*gj-function\s+2",
    ),
    Sentence(
        see="`form` at a line `f` of a text 1",
        means="lines of text 2 stand under `gj-function 1`, or `order` is missing",
        do="write `gj-function 2` before breakpoints; `order Q` before values",
        words="minimal", input=five("gj-function 2", "gj-function 1"), answer="refused line 2 form",
        when=LINE + "form", line=r"^\s*f\b", text=r"^\s*gj-function\s+1",
    ),
    Sentence(
        see="`form` at a line `family` of a text 2",
        means="a family stands in text 1",
        do="write `gj-function 1`",
        words="minimal",
        input="gj-function 2\nfamily gmic 3/5\nend\n",
        answer="refused line 2 form",
        when=LINE + "form", line=r"^\s*family\b", text=r"^\s*gj-function\s+2",
    ),
    Sentence(
        see="`form` at a line `family`",
        means="there is no such family, or a word is missing or too many",
        do="write `family gmic F`, `family half F` or `family two-slope K SIGNS`",
        words="minimal", input="gj-function 1\nfamily gmi 3/5\nend\n", answer="refused line 2 form",
        when=LINE + "form", line=r"^\s*family\b",
    ),
    Sentence(
        see="`form` at a line with a capital letter, or a misspelt word",
        means="the words are `order`, `f`, `point`, `family` and `end`, in small letters",
        do="correct the first word of the line",
        words="minimal", input=five("point 3/5 1", "Point 3/5 1"), answer="refused line 4 form",
        when=LINE + "form", command=NO_CHECK, line=r"^\s*(?!(order|f|point|family|end)(\s|$))\S",
    ),
    Sentence(
        see="`form` at a line `point` of a text 1",
        means="there is one point too many, often one for the place 1",
        do="leave it out: there are Q, for 0, 1/Q, .., (Q - 1)/Q",
        words="minimal", input=VALUES.replace("end", "point 0\nend"), answer="refused line 6 form",
        when=LINE + "form",
        around=r"\A\s*point\b.*\n\s*point\s+\S+(\s+\S+\s+\S+)?\s*$",
        text=r"^\s*gj-function\s+1",
    ),
    Sentence(
        see="`form` at a line `point` of a text 1",
        means="it has not one fraction or three; in text 1 no place stands in it",
        do=(
            "write the value, or limit from the left, value and limit from the right; or "
            "`gj-function 2` and places"
        ),
        words="minimal",
        input=VALUES.replace("point 1\n", "point 1/2 1\n"),
        answer="refused line 5 form",
        when=LINE + "form", around=r"\A\s*(f|point)\b.*\n\s*point\b", text=r"^\s*gj-function\s+1",
    ),
    Sentence(
        see="`form` at a line `point` of a text 2",
        means="after the place there are not one fraction or three",
        do="write place and value, or place, limit from the left, value and limit from the right",
        words="minimal", input=five("point 3/5 1", "point 3/5 1 0"), answer="refused line 4 form",
        when=LINE + "form", around=r"\A\s*(f|point)\b.*\n\s*point\b", text=r"^\s*gj-function\s+2",
    ),
    Sentence(
        see="`form` at another line of a function",
        means="the line has not the words that are to stand there",
        do="see [Function text](#function-text): `order` (text 1), `f`, the lines `point`, `end`",
        words="minimal", input=five("f 3/5", "point 0 0"), answer="refused line 2 form",
        when=LINE + "form", command=NO_CHECK,
    ),
    # ---- numbers of a function
    Sentence(
        see="`number` at a line `family`",
        means="the number before the signs, or f, is none",
        do=(
            "write `family two-slope K SIGNS`, K a whole number, as `family two-slope 2 ++--`; "
            "`family gmic F` and `family half F`, F a fraction"
        ),
        words="minimal",
        input="gj-function 1\nfamily two-slope ++-- 2\nend\n",
        answer="refused line 2 number",
        when=LINE + "number", command=NO_CHECK, line=r"^\s*family\b",
    ),
    Sentence(
        see="`number`: `0,5` or `1/2,`",
        means="a comma stands in a number or after it",
        do="write `0.5`, and nothing but blanks between numbers",
        words="minimal", input=five("point 3/5 1", "point 3/5, 1"), answer="refused line 4 number",
        when=LINE + "number", command=NO_CHECK, line=r"[,;]",
    ),
    Sentence(
        see="`number`: `1e-1`",
        means="in a function there is no exponent",
        do="write `0.1` or `1/10`",
        words="minimal", input=five("point 3/5 1", "point 6e-1 1"), answer="refused line 4 number",
        when=LINE + "number", command=NO_CHECK, line=r"\d[eE][+-]?\d",
    ),
    Sentence(
        see="`number`: `.5` or `5.`",
        means="digits stand on both sides of a point",
        do="write `0.5` and `5`",
        words="minimal", input=five("point 3/5 1", "point .6 1"), answer="refused line 4 number",
        when=LINE + "number", command=NO_CHECK, line=r"(^|\s)[+-]?(\.\d+|\d+\.)(\s|$)",
    ),
    Sentence(
        see="`number`: a minus sign that is none",
        means="it is a dash or another sign of that look",
        do="write `-`",
        words="minimal",
        input=five("point 3/5 1", "point 3/5 \u22121"),
        answer="refused line 4 number",
        when=LINE + "number", command=NO_CHECK, line="[\u2212\u2013\u2014\u2010\u2011\u2012]",
    ),
    Sentence(
        see="`number`: `1/0`",
        means="a denominator is 0",
        do="write the fraction that was meant",
        words="minimal", input=five("point 3/5 1", "point 3/5 1/0"), answer="refused line 4 number",
        when=LINE + "number", command=NO_CHECK, line=r"/0+(\s|$)",
    ),
    Sentence(
        see="`number` in a function",
        means=(
            "a word is no whole number, no fraction `2/3` and no decimal `0.25`; or it has 39 "
            "digits and more"
        ),
        do="write one of these, with a sign if you want one",
        words="minimal", input=five("point 3/5 1", "point 3/5 one"), answer="refused line 4 number",
        when=LINE + "number", command=NO_CHECK,
    ),
    # ---- f, order and places
    Sentence(
        see="`order` in a function",
        means="Q is not from 2 to 1,000",
        do=(
            "test a function with a smaller common denominator, and know that the verdict is about "
            "that one"
        ),
        words="minimal",
        input=VALUES.replace("order 2", "order 1001"),
        answer="refused line 2 order",
        when=LINE + "order", command=NO_CHECK,
    ),
    Sentence(
        see="`place` in a text 2",
        means="f is not between 0 and 1, both excluded",
        do="take f modulo 1; whole numbers have no cut",
        words="minimal", input=five("f 3/5", "f 8/5"), answer="refused line 2 place",
        when=LINE + "place", text=r"^\s*gj-function\s+2",
    ),
    Sentence(
        see="`place` in a text 1",
        means="f is no multiple of 1/Q, or is 0 or 1 or outside",
        do="take a common denominator of f and all breakpoints for Q, or write text 2",
        words="minimal", input=VALUES.replace("f 1/2", "f 1/3"), answer="refused line 3 place",
        when=LINE + "place", command=NO_CHECK,
    ),
    Sentence(
        see="`break` at a point at 1 or after it",
        means="the function has period 1, and its last point lies before 1",
        do="leave this line out",
        words="minimal", input=five("end", "point 1 0\nend"), answer="refused line 5 break",
        when=LINE + "break", line=r"^\s*point\s+\+?(0*[1-9]\d*(\.\d+)?|(\d+)/\3)\s(?!.*#)",
    ),
    Sentence(
        see="`break` at a point below 0",
        means="the function has period 1, and its points lie from 0 to below 1",
        do="add 1 to the place, as 4/5 for -1/5, and sort the lines `point` by their places",
        words="minimal", input=five("end", "point -1/5 1/2\nend"), answer="refused line 5 break",
        when=LINE + "break", line=r"^\s*point\s+-0*(\.0*)?[1-9]",
    ),
    Sentence(
        see="`break` at the first point",
        means="the first point is not at 0",
        do="begin with `point 0` and the value at 0",
        words="minimal", input=five("point 0 0\n", ""), answer="refused line 3 break",
        when=LINE + "break", around=r"\A\s*f\b",
    ),
    Sentence(
        see="`break` at the second of two points at one place",
        means="a jump is written as two points",
        do="write one line, with the limit from the left, the value and the limit from the right",
        words="minimal", input=five("end", "point 3/5 0\nend"), answer="refused line 5 break",
        when=LINE + "break", around=r"\A\s*point\s+(\S+)\s.*\n\s*point\s+\1\s",
    ),
    Sentence(
        see="`break`",
        means="a point is not to the right of the one before",
        do="sort the lines `point` by their places",
        words="minimal", input=five("end", "point 2/5 0\nend"), answer="refused line 5 break",
        when=LINE + "break",
    ),
    Sentence(
        see="`pieces` at a point with decimals",
        means="the order of the function is above 1,000, since a breakpoint is a rounded decimal",
        do="write the fraction that was meant, as `1/3`",
        words="minimal",
        input=five("point 3/5 1", "point 0.3333 1"),
        answer="refused line 4 pieces",
        when=LINE + "pieces", line=r"^\s*(point|f)\s+[+-]?\d+\.\d",
    ),
    Sentence(
        see="`pieces` in a text 2",
        means=(
            "the order is above 1,000: the least common multiple of the denominators of f and of "
            "all breakpoints so far"
        ),
        do="test a function with other breakpoints, and know that the verdict is about that one",
        words="minimal",
        input=five("point 3/5 1", "point 500/1009 1"),
        answer="refused line 4 pieces",
        when=LINE + "pieces", line=r"^\s*(point|f)\b",
    ),
    Sentence(
        see="`large` in a function",
        means="a value is above 1,048,576 or below -1,048,576",
        do="look for a slip: the values of a minimal function lie from 0 to 1",
        words="minimal",
        input=five("point 3/5 1", "point 3/5 1048577"),
        answer="refused line 4 large",
        when=LINE + "large", command=NO_CHECK,
    ),
    Sentence(
        see="`fine` at the line `end` of a text 2",
        means="the values between breakpoints have a common denominator above 2,147,483,647",
        do="take other values or breakpoints",
        words="minimal", input=FINE_AT_END, answer="refused line 5 fine",
        when=LINE + "fine", line=r"^\s*end\b",
    ),
    Sentence(
        see="`fine` in a function",
        means=(
            "the values so far have a common denominator above 2,147,483,647: decimals of ten "
            "places, or of nine beside a third"
        ),
        do="write the fractions that were meant, as `1/3`",
        words="minimal",
        input=five("point 3/5 1", "point 3/5 0.3333333333"),
        answer="refused line 4 fine",
        when=LINE + "fine", command=NO_CHECK,
    ),
    # ---- families
    Sentence(
        see="`bad-f` at a line `family`",
        means=(
            "f is not between 0 and 1; of `two-slope`: K is not from 1 to Q - 1, with Q the number "
            "of signs"
        ),
        do="take f modulo 1; for K the number of signs before f",
        words="minimal",
        input="gj-function 1\nfamily gmic 8/5\nend\n",
        answer="refused line 2 bad-f",
        when=LINE + "bad-f",
    ),
    Sentence(
        see="`pieces` at a line `family`",
        means="the order is above 1,000: the denominator of f, or the number of signs",
        do="take an f with a smaller denominator, or fewer signs",
        words="minimal",
        input="gj-function 1\nfamily gmic 1/1001\nend\n",
        answer="refused line 2 pieces",
        when=LINE + "pieces",
    ),
    Sentence(
        see="`signs` at a line `family`",
        means="SIGNS has another sign than `+` and `-`, or fewer than two",
        do="write one word of `+` and `-`, one for each interval",
        words="minimal",
        input="gj-function 1\nfamily two-slope 1 +x\nend\n",
        answer="refused line 2 signs",
        when=LINE + "signs",
    ),
    Sentence(
        see="`slopes` at a line `family`",
        means="with these signs no function of two slopes is 1 at f and 0 at 1",
        do="take more rises before f, and more falls after it",
        words="minimal",
        input="gj-function 1\nfamily two-slope 1 -+\nend\n",
        answer="refused line 2 slopes",
        when=LINE + "slopes",
    ),
]
