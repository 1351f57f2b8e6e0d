"""Sentences about the end of a text, proofs, tableaux, JSON and other answers."""
from ._function_sentences import CHECK, FIVE, GMIC, LINE, NO_CHECK, PROOF, RECORD, five, proof
from ._sentence import Sentence

HALF = "gj-function 1\nfamily half 1/2\nend\n"

OTHER_SENTENCES = [
    # ---- the end of a function or a proof
    Sentence(
        see="`tail` in a function",
        means="a tableau follows: this is an input of `cut` or `mixed`",
        do="hand it to one of these, or leave the tableau out",
        words="minimal", input=FIVE + "basic,rhs,x1\n", answer="refused line 6 tail",
        when=LINE + "tail", command=NO_CHECK, line=r"^\s*basic\s*,",
    ),
    Sentence(
        see="`tail` in a function",
        means="something follows the line `end`",
        do="leave it out, or begin each such line with `#`",
        words="minimal", input=FIVE + "point 4/5 0\n", answer="refused line 6 tail",
        when=LINE + "tail", command=NO_CHECK,
    ),
    Sentence(
        see="`tail` in a proof",
        means="something follows `end`: a signature, an empty line, a second proof",
        do="cut it off; hand proofs over one by one",
        words="check", input=PROOF + "\n", answer="refused line 8 tail",
        when=LINE + "tail", command=CHECK,
    ),
    # ---- proofs
    Sentence(
        see="`form` or `number` in a proof, at a line with a blank at its end or CR LF",
        means="a proof has one spelling",
        do="`tr -d '\\r'` takes off each CR, `sed 's/ *$//'` the blanks at the ends",
        words="check", input=proof("order 2", "order 2 "), answer="refused line 3 form",
        when=LINE + "(form|number)", command=CHECK, line=r"\s$|\s\s|\r",
    ),
    Sentence(
        see="`form` in a proof, though nothing is missing",
        means="the line break after `end` is missing",
        do="add it",
        words="check", input=PROOF[:-1], answer="refused line 7 form",
        when=LINE + "form", command=CHECK, line=r"^end$", text=r"end\Z",
    ),
    Sentence(
        see="`form` in a proof, one line after the last",
        means="the proof was cut off",
        do="take the whole of it, from `gj-proof` to `end`",
        words="check", input=proof("end\n", ""), answer="refused line 7 form",
        when=LINE + "form", command=CHECK, is_past=True,
    ),
    Sentence(
        see="`form` in a proof, at the first line of another kind, or at `end`",
        means="a line before it is missing or too many, or the claim in line 2 has other lines",
        do="let the program write the proof: `gjcut extreme` over its function",
        words="check", input=proof("point 1\n", ""), answer="refused line 6 form",
        when=LINE + "form", command=CHECK,
    ),
    Sentence(
        see="`number` in a proof",
        means=(
            "a number is not in its one spelling, as `2/4`, `0.5` or `05`, or outside the range of "
            "its place"
        ),
        do="let the program write the proof: `gjcut extreme` over its function",
        words="check", input=proof("f 1/2", "f 2/4"), answer="refused line 4 number",
        when=LINE + "number", command=CHECK,
    ),
    Sentence(
        see="`order`, `place`, `large` or `fine` in a proof",
        means="its function is outside a limit",
        do="see [Reasons of a refused text](#reasons-of-a-refused-text)",
        words="check", input=proof("order 2", "order 1"), answer="refused line 3 order",
        when=LINE + r"(order|place|large|fine)", command=CHECK,
    ),
    # ---- tableaux
    Sentence(
        see="`header`, though no record is wrong",
        means="there is no tableau after the line `end`",
        do="write it there, in lines that begin with `basic,rhs,x1,..`",
        words="cut", input=GMIC, answer="refused record 1 header",
        when=RECORD + "header", is_past=True,
    ),
    Sentence(
        see="`header`",
        means=(
            "the first record is not `basic,rhs,` and the names of the columns; often another "
            "separator than the comma, or a comment before it"
        ),
        do="begin the tableau with `basic,rhs,x1,..`",
        words="cut", input=GMIC + "x0,1/2,1/3\n", answer="refused record 1 header",
        when=RECORD + "header",
    ),
    Sentence(
        see="`fields`, at a record that begins with `#`",
        means="a comment is a record in a tableau",
        do="leave it out",
        words="cut",
        input=GMIC + "basic,rhs,x1\n# a row\nx0,1/2,1/3\n",
        answer="refused record 2 fields",
        when=RECORD + "fields", line=r"^\s*#",
    ),
    Sentence(
        see="`fields`",
        means=(
            "this row has not as many fields as the header: a comma at its end, a decimal comma, "
            "or a comma in a name"
        ),
        do="write `0.5`, and names with commas in quotes, `\"s[2,1]\"`",
        words="cut", input=GMIC + "basic,rhs,x1\nx0,1/2,1/3,\n", answer="refused record 2 fields",
        when=RECORD + "fields",
    ),
    Sentence(
        see="`columns`, `rows` or `entries`",
        means="there are more than 10,000 columns, 10,000 rows or 100,000 entries that are not 0",
        do="split the tableau over several inputs",
        words="cut",
        input=GMIC + "basic,rhs" + ",x" * 10_001 + "\n",
        answer="refused record 1 columns",
        when=RECORD + "(columns|rows|entries)",
    ),
    Sentence(
        see="`name`",
        means=(
            "a name is empty, or has a blank, a quote or a byte that is not ASCII in it, or more "
            "than 255 bytes; or a blank stands between a comma and a quote"
        ),
        do="rename it, with `_` for a blank",
        words="cut", input=GMIC + "basic,rhs,x 1\nx0,1/2,1/3\n", answer="refused record 1 name",
        when=RECORD + "name",
    ),
    Sentence(
        see="`twice`",
        means="two columns, two basic variables, or a column and a basic variable have one name",
        do="give each its own; leave columns of basic variables out",
        words="cut",
        input=GMIC + "basic,rhs,x1,x1\nx0,1/2,1/3,1\n",
        answer="refused record 1 twice",
        when=RECORD + "twice",
    ),
    Sentence(
        see="`number` in a tableau",
        means=(
            "a number has an exponent, no digits on one side of its point, or is missing as a "
            "right side"
        ),
        do="write `0.001` or `1/1000`; only an empty entry is 0",
        words="cut", input=GMIC + "basic,rhs,x1\nx0,1/2,1e-3\n", answer="refused record 2 number",
        when=RECORD + "number",
    ),
    Sentence(
        see="`large` in a tableau",
        means="a number is above 2,147,483,648 or below the negative of that",
        do="take the entry of a whole column modulo 1; scale the row otherwise",
        words="cut",
        input=GMIC + "basic,rhs,x1\nx0,1/2,3000000000\n",
        answer="refused record 2 large",
        when=RECORD + "large",
    ),
    Sentence(
        see="`fine` in a tableau",
        means=(
            "the common denominator of this row is above 2,147,483,647, often by doubles with "
            "seventeen digits"
        ),
        do=(
            "write the fractions that were meant, as `1/6`; [solver.md](solver.md) says how exact "
            "rows are made"
        ),
        words="cut",
        input=GMIC + "basic,rhs,x1\nx0,1/2,0.3333333333333333\n",
        answer="refused record 2 fine",
        when=RECORD + "fine",
    ),
    # ---- JSON and length
    Sentence(
        see="`refused json syntax`",
        means="this is a function text, and no JSON",
        do="leave the word `--json` out",
        words="minimal --json", input=FIVE, answer="refused json syntax",
        when="refused json syntax", text=r"\A\s*gj-function",
    ),
    Sentence(
        see="`refused json syntax`",
        means="the input is no JSON: a comma or a bracket is missing or too many",
        do="let a program write it, or try `python3 -m json.tool`",
        words="minimal --json", input='{"order": 2,}', answer="refused json syntax",
        when="refused json syntax",
    ),
    Sentence(
        see="`refused json form`",
        means=(
            "a key or a value is missing or has another form: a bare `0.5`, `left` without "
            "`right`, breakpoints, a family"
        ),
        do="write `order`, `f` and `value`, with fractions as strings; see [JSON](#json)",
        words="minimal --json",
        input='{"order": 2, "f": 0.5, "value": [0, 1]}',
        answer="refused json form",
        when="refused json form",
    ),
    Sentence(
        see="`refused json number`, `order`, `place`, `large` or `fine`",
        means="as in a function text 1",
        do="see the row of that reason above",
        words="minimal --json",
        input='{"order": 2, "f": "1/3", "value": [0, 1]}',
        answer="refused json place",
        when="refused json (number|order|place|large|fine)",
    ),
    Sentence(
        see="`refused long`",
        means="the input has more than 16,777,216 bytes",
        do=(
            "split a tableau over several inputs, leave out constraints of a problem whose "
            "multipliers are 0; a longer proof is not read"
        ),
        words="minimal", input="#", times=16_777_217, answer="refused long",
        when="refused long",
    ),
    # ---- other statuses
    Sentence(
        see="`no function VIOLATION` from `cut`, `mixed` or `problem`",
        means="the function is not minimal, and its cuts need not hold",
        do="see what `minimal` says of it, or take the rule `gmic`",
        words="cut",
        input=five("point 3/5 1", "point 3/5 9/10") + "basic,rhs,x1\nx0,3/5,1/3\n",
        answer="no function asymmetric 0",
        when="no function .*",
    ),
    *(
        Sentence(
            see=f"`not continuous X` from `{command}`",
            means=(
                f"{jumps} at X: without the word `--jumps` the command {does} continuous functions"
            ),
            do=f"write `{command} --jumps`{which}",
            words=command, input=HALF, answer="not continuous 0",
            when="not continuous .*", command=f"^{command}",
        )
        for command, jumps, does, which in (
            (
                "extreme", "the function is minimal, and jumps", "decides",
                ", which says whether it is extreme",
            ),
            ("faces", "the function jumps", "reads", ""),
        )
    ),
    Sentence(
        see="`not continuous X` from `fill`, `group`, `mixed`, `problem` or `restrict`",
        means="the function jumps at X, and this command reads continuous functions",
        do="take a continuous function, often by a breakpoint more",
        words="fill", input=HALF, answer="not continuous 0",
        when="not continuous .*",
    ),
    Sentence(
        see="`not subadditive A B` from `fill`",
        means="the values at A and B add up to less than that at A + B",
        do="there is a fill-in of subadditive values alone; correct these",
        words="fill", input=five("point 3/5 1", "point 3/5 -1"), answer="not subadditive 1/5 3/5",
        when="not subadditive .*",
    ),
    Sentence(
        see="`order limit` from `group`",
        means="the order of the function is above 120",
        do="ask `extreme`, which reads orders up to 1,000",
        words="group", input="gj-function 1\nfamily gmic 1/121\nend\n", answer="order limit",
        when="order limit", command="^group",
    ),
    Sentence(
        see="`order limit` from `times`",
        means="the order of the function times N is above 1,000",
        do="take a smaller N",
        words="times 500 0", input=FIVE, answer="order limit",
        when="order limit",
    ),
    Sentence(
        see="`bad order` from `restrict`",
        means="D does not divide the order of the function, or f is no multiple of 1/D",
        do="take a divisor of the order, which `show` prints",
        words="restrict 3", input=FIVE, answer="bad order",
        when="bad order",
    ),
    Sentence(
        see="`not-minimal` with an `asymmetric` point, though the function is symmetric",
        means=(
            "rounded decimals do not add up: 0.3333333 and 0.6666666 are not 1; or the three "
            "fractions of a point stand in another order"
        ),
        do="write `1/3` and `2/3`; left limit, value, right limit",
        words="minimal",
        input=five("point 3/5 1", "point 1/5 0.3333333\npoint 2/5 0.6666666\npoint 3/5 1"),
        answer="asymmetric 1/5",
        when="asymmetric .*", text=r"\.\d{4}",
    ),
]
