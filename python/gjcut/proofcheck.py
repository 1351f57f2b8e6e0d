#!/usr/bin/env python3
"""This checker is no proof. It is a plain program, as sure as you find it when you read it.

    python3 proofcheck.py FILE

It checks a proof text of gjcut, and prints what the proved `gjcut check` prints, with the same
status: `accepted CLAIM` (0), `rejected line N RULE` (1), `refused line N REASON` (3). It is for who
has no kit to build that. It was written from docs/formats.md (the texts and the rules) and
docs/mathematics.md (what the words mean), shares no line with the program, and needs Python 3.9 and
nothing else.

Words: a function has period 1, the order q and the place k of f = k/q. `limits["-"]`,
`limits["0"]` and `limits["+"]` list its limits from the left, its values and its limits from the
right at 0, 1/q, .., (q - 1)/q, in whole numbers over `scale`. Between them it is affine. The slack
at x and y is the value at x plus that at y less that at x + y.
"""
import re
import sys
from fractions import Fraction
from math import gcd, lcm
from operator import sub

WIDEST, LONGEST = 2**127 - 1, 16_777_216
MODULUS = 2**61 - 1
# From which sides x, y and x + y come to a limit of the slack, in all thirteen ways.
WAYS = "000 +0+ -0- 0++ 0-- -+0 +-0 +++ -+- +-- -++ +-+ ---".split()
# The corners of each face of the square (a, b), as steps from (a, b), each with its way: that from
# the inside of the face.
CORNERS = {
    "horizontal": [(0, 0, "+0+"), (1, 0, "-0-")],
    "vertical": [(0, 0, "0++"), (0, 1, "0--")],
    "diagonal": [(1, 0, "-+0"), (0, 1, "+-0")],
    "lower": [(0, 0, "+++"), (1, 0, "-+-"), (0, 1, "+--")],
    "upper": [(1, 0, "-++"), (0, 1, "+-+"), (1, 1, "---")],
}
# Which two corners are the ends of each edge of a face.
EDGES = {
    "horizontal": {"horizontal": (0, 1)},
    "vertical": {"vertical": (0, 1)},
    "diagonal": {"diagonal": (0, 1)},
    "lower": {"horizontal": (0, 1), "vertical": (0, 2), "diagonal": (1, 2)},
    "upper": {"horizontal": (1, 2), "vertical": (0, 2), "diagonal": (0, 1)},
}
# Which two of its three projections, on x, y and x + y, an edge links.
LINKED = {"horizontal": (0, 2), "vertical": (1, 2), "diagonal": (0, 1)}
TRIANGLES = ("lower", "upper")


class Refused(Exception):
    """The text is no proof text: the line at fault, and the reason."""


class Rejected(Exception):
    """The proof does not show its claim: the line, and the rule that fails."""


def demand(holds, line, rule):
    if not holds:
        raise Rejected(line, rule)


# ---- numbers and lines


def count(word):
    """A count, or None. Of a long one the first 40 digits are enough to be above every limit."""
    return int(word[:40]) if re.fullmatch("0|[1-9][0-9]*", word) else None


def fraction(word):
    """A fraction in its one spelling, or None."""
    found = re.fullmatch("(-?[1-9][0-9]{0,38}|0)(?:/([1-9][0-9]{0,38}))?", word)
    if not found:
        return None
    top, bottom = int(found[1]), int(found[2] or 1)
    is_least = found[2] is None or (bottom > 1 and gcd(top, bottom) == 1)
    return Fraction(top, bottom) if is_least and max(abs(top), bottom) <= WIDEST else None


def whole(word):
    return None if "/" in word else fraction(word)


def within(least, greatest):
    """Reads a count in this range."""
    return lambda word: n if (n := count(word)) is not None and least <= n <= greatest else None


def is_tripled(words):
    """Whether each word stands three times where once would do."""
    threes = [words[i : i + 3] for i in range(0, len(words), 3)]
    return len(words) > 2 and all(three == three[:1] * 3 for three in threes)


class Text:
    """The lines of a text, read one after another; `line` is the number of the last one."""

    def __init__(self, text):
        self.lines, self.line = text.split("\n"), 0

    def refuse(self, reason):
        raise Refused(self.line, reason)

    def next_word(self):
        return self.lines[self.line].split(" ")[0]

    def read(self, *forms):
        """What the next line says after its first word, in one of these forms. A form has a pattern
        for each word, or what reads it as a number. First the words are judged, then the numbers.
        """
        line, has_end = self.lines[self.line], self.line < len(self.lines) - 1
        words = line.split(" ")
        self.line += 1
        if "" in words or "\t" in line or line.endswith("\r") or not has_end:
            self.refuse("form")
        if words[0] in ("point", "pair") and is_tripled(words[1:]):
            self.refuse("form")
        for form in forms:
            pairs = list(zip(words, form))
            fits = (callable(part) or re.fullmatch(part, word) for word, part in pairs)
            if len(words) == len(form) and all(fits):
                break
        else:
            self.refuse("form")
        said = [part(word) if callable(part) else word for word, part in pairs]
        if None in said:
            self.refuse("number")
        return said[1:]


# ---- functions


class Function:
    """A function. `sides` has for each multiple of 1/q the limit from the left, the value and the
    limit from the right, over the scale."""

    def __init__(self, place, scale, sides):
        self.order, self.place, self.scale = len(sides), place, scale
        self.limits = dict(zip("-0+", map(list, zip(*sides))))

    def is_continuous(self):
        return self.limits["-"] == self.limits["0"] == self.limits["+"]

    def at(self, x, side="0"):
        """The value at a fraction, or the limit from a side."""
        a, rest = divmod(x * self.order, 1)
        here, after = a % self.order, (a + 1) % self.order
        if rest == 0:
            return Fraction(self.limits[side][here], self.scale)
        rise = self.limits["-"][after] - self.limits["+"][here]
        return (self.limits["+"][here] + rest * rise) / self.scale

    def is_tight(self, a, b, way="000"):
        """Whether the limit of the slack at a/q and b/q is 0, from these sides."""
        at_x, at_y, at_sum = (self.limits[side] for side in way)
        q = self.order
        return at_x[a % q] + at_y[b % q] == at_sum[(a + b) % q]

    def is_minimal(self):
        """0 at 0, nowhere negative, symmetric, and each limit of the slack at least 0: on each face
        the slack lies between its limits at the corners."""
        q, left, value, right = self.order, *(self.limits[side] for side in "-0+")
        if value[0] != 0 or min(left + value + right) < 0:
            return False
        for i in range(q):
            opposite = (self.place - i) % q
            if not value[i] + value[opposite] == right[i] + left[opposite] == self.scale:
                return False
        for way in WAYS[:1] if self.is_continuous() else WAYS:
            at_x, at_y, at_sum = (self.limits[side] for side in way)
            for a in range(q):
                if at_x[a] + min(map(sub, at_y, at_sum[a:] + at_sum[:a])) < 0:
                    return False
        return True


def read_function(text):
    """The lines from `order` to the last `point`."""
    (order,) = text.read(("order", count))
    if not 2 <= order <= 1000:
        text.refuse("order")
    (f,) = text.read(("f", fraction))
    if not (0 < f < 1 and (f * order).denominator == 1):
        text.refuse("place")
    points, scale = [], 1
    for _ in range(order):
        said = text.read(("point", fraction), ("point", fraction, fraction, fraction))
        for value in said:
            scale = lcm(scale, value.denominator)
            if abs(value) > 2**20:
                text.refuse("large")
            if scale > 2**31 - 1:
                text.refuse("fine")
        points.append(said * (3 // len(said)))
    sides = [[int(value * scale) for value in point] for point in points]
    return Function(int(f * order), scale, sides)


# ---- not minimal


def read_violation(text, _function, _version):
    kind = text.next_word()
    points = {"zero": 0, "negative": 1, "asymmetric": 1, "superadditive": 2}.get(kind, 0)
    at = text.read(["zero|negative|asymmetric|superadditive", *[fraction] * points])
    return text.line, kind, at


def check_violation(function, _version, shown, _end):
    line, kind, at = shown
    is_inside = all(0 <= x < 1 for x in at) and lcm(*(x.denominator for x in at)) <= 2**62
    demand(is_inside, line, "point")
    x, y = [*at, 0, 0][:2]
    f = Fraction(function.place, function.order)
    shows = {
        "zero": function.at(0) != 0,
        "negative": function.at(x) < 0,
        "asymmetric": function.at(x) + function.at(f - x) != 1,
        "superadditive": function.at(x) + function.at(y) < function.at(x + y),
    }
    demand(shows[kind], line, "point")


# ---- extreme


def read_cover_and_groups(text, function, version):
    """The cover lines; the lines of the groups, each with its number and what it says; and the
    modulus, or None."""
    q, cover, steps, modulus = function.order, [], [], None
    kinds, index = "|".join(CORNERS), within(0, function.order - 1)
    rows = [("row", "f" if version == 3 else "period|f")]
    for _ in range(q):
        said = text.read(("cover", index, index, kinds, index, index))
        cover.append((text.line, *said))
    if version == 2 or (version == 3 and text.next_word() == "modulus"):
        (modulus,) = text.read(("modulus", within(MODULUS, MODULUS)))
    rows.append(("row", within(1, q - 1), within(1, q - 1)))
    if version == 3:
        rows.append(("row", index, index, "|".join(map(re.escape, WAYS[1:]))))
    column = within(0, 2999 if version == 3 else 999)
    while text.next_word() == "row":
        said = text.read(*rows)
        if len(said) > 1 and said[0] > said[1]:
            text.refuse("number")
        steps.append((text.line, "row", said))
        while text.next_word() == "reduce":
            steps.append((text.line + 1, "reduce", *text.read(("reduce", column))))
        steps.append((text.line + 1, "pivot", *text.read(("pivot", column))))
    return cover, steps, modulus


def is_covered_by(function, version, i, j, kind, a, b):
    """Whether the face shows that interval i is covered: by itself if j is i, or else as j is."""
    tight = [function.is_tight(a + x, b + y, way) for x, y, way in CORNERS[kind]]
    projections = [each % function.order for each in (a, b, a + b + (kind == "upper"))]
    if i == j or version < 3:
        # All limits are 0, so that the slack is 0 on the whole face.
        if not all(tight):
            return False
    if i == j:
        return kind in TRIANGLES and i in projections
    for edge, ends in EDGES[kind].items():
        linked = {projections[each] for each in LINKED[edge]}
        if linked == {i, j} and all(tight[end] for end in ends):
            return True
    return False


def components_of(function, version, cover):
    """The number of the component that each interval is in."""
    component, number = {}, 0
    for line, i, j, kind, a, b in cover:
        has_line = i in component or (j != i and j not in component)
        covers = not has_line and is_covered_by(function, version, i, j, kind, a, b)
        demand(covers, line, "cover")
        component[i] = number if i == j else component[j]
        number += i == j
    return component, number


class System:
    """The equations for a perturbation. Its unknowns have the numbers 0, 1, ..: the slope on each
    component; in a text about a function that jumps first the values and the limits from the right,
    and then the slopes."""

    def __init__(self, function, version, component, components):
        self.function, self.component = function, component
        self.slopes = 2 * function.order - 1 if version == 3 else 0
        self.columns = self.slopes + components

    def perturbation(self, i, side):
        """The value or limit at i/q as a sum of unknowns: how often each stands in it."""
        q, found = self.function.order, {}
        if self.slopes == 0:
            for interval in range(i):
                column = self.component[interval]
                found[column] = found.get(column, 0) + 1
        elif side == "+":
            found[2 * (q - 1 - i)] = 1
        elif side == "-":
            interval = (i - 1) % q
            found[2 * (q - 1 - interval)] = 1
            found[self.slopes + self.component[interval]] = 1
        elif i != 0:
            found[2 * (q - i) - 1] = 1
        return found

    def row(self, said):
        """The row that a line names, or None if it does not hold of the function."""
        function, q = self.function, self.function.order
        if said == ["period"]:
            return self.perturbation(q, "0")
        if said == ["f"]:
            return self.perturbation(function.place, "0")
        a, b, way = [*said, "000"][:3]
        if not function.is_tight(a, b, way):
            return None
        row = {}
        for sign, i, side in zip((1, 1, -1), (a, b, (a + b) % q), way):
            for column, times in self.perturbation(i, side).items():
                row[column] = row.get(column, 0) + sign * times
        return nonzero(row)


def nonzero(row):
    return {column: x for column, x in row.items() if x != 0}


def reduced(row, kept, c, modulus):
    """The row less a multiple of the kept row, so that it is 0 at c; or None if a number is too
    large. Whole numbers are divided by what all have in common."""
    if modulus:
        u, v = 1, row[c]
    else:
        common = gcd(row[c], kept[c])
        u, v = kept[c] // common, row[c] // common
    found = {}
    for column in row.keys() | kept.keys():
        x, y = u * row.get(column, 0), v * kept.get(column, 0)
        if not modulus and max(abs(x), abs(y), abs(x - y)) > WIDEST:
            return None
        found[column] = (x - y) % modulus if modulus else x - y
    found = nonzero(found)
    common = 1 if modulus else gcd(*found.values())
    return {column: x // common for column, x in found.items()}


def check_extreme(function, version, shown, end):
    """As many equations as unknowns, each with an unknown of its own: so only 0 solves them all,
    there is no perturbation but 0, and the function is no average of two others."""
    cover, steps, modulus = shown
    system = System(function, version, *components_of(function, version, cover))
    kept, row = {}, {}
    for line, kind, said in steps:
        if kind == "row":
            row = system.row(said)
            demand(row is not None, line, "row")
            if modulus:
                row = nonzero({column: x % modulus for column, x in row.items()})
        elif kind == "reduce":
            demand(said in kept and said in row, line, "reduce")
            row = reduced(row, kept[said], said, modulus)
            demand(row is not None, line, "size")
        else:
            is_new = said < system.columns and said not in kept
            is_first = is_new and bool(row) and said == min(row)
            has_inverse = is_first and (not modulus or gcd(row[said], modulus) == 1)
            demand(has_inverse, line, "pivot")
            if modulus:
                inverse = pow(row[said], -1, modulus)
                row = {column: x * inverse % modulus for column, x in row.items()}
            kept[said] = row
    demand(len(kept) == system.columns, end, "rank")


# ---- not extreme


def read_halves(text, _function, version):
    order, scale = text.read(("halves", within(2, 4000), within(1, 2**124)))
    line, pairs, forms = text.line, [], [["pair", whole, whole]]
    if version == 3:
        forms.append(["pair", *[whole] * 6])
    for _ in range(order):
        said = [int(n) for n in text.read(*forms)]
        first, second = said[: len(said) // 2], said[len(said) // 2 :]
        pairs.append((first * (3 // len(first)), second * (3 // len(second))))
    return line, scale, pairs


def check_halves(function, _version, shown, _end):
    """Two minimal functions that are not the same, and whose average is the function."""
    line, scale, pairs = shown
    order = len(pairs)
    m, rest = divmod(order, function.order)
    demand(rest == 0 and scale % (m * function.scale) == 0, line, "scale")
    for i, (first, second) in enumerate(pairs):
        is_inside = all(0 <= n <= scale for n in first + second)
        demand(is_inside, line + 1 + i, "range")
        for side, a, b in zip("-0+", first, second):
            average = Fraction(a + b, 2 * scale)
            is_average = average == function.at(Fraction(i, order), side)
            demand(is_average, line + 1 + i, "average")
    halves = [Function(function.place * m, scale, half) for half in zip(*pairs)]
    demand(halves[0].is_minimal(), line, "first")
    demand(halves[1].is_minimal(), line, "second")
    demand(halves[0].limits != halves[1].limits, line, "same")


# ---- cuts

NAME = "[!#-~]{1,255}"


def read_cuts(text, _function, _version):
    """The lines `skip`, `cut` and `term`, each with its number."""
    cuts = []
    while text.next_word() in ("skip", "cut"):
        if text.next_word() == "skip":
            said = text.read(("skip", NAME, fraction, "integral|other"))
            cuts.append((text.line, "skip", *said))
        else:
            cuts.append((text.line + 1, "cut", *text.read(("cut", NAME, fraction)), None))
            while text.next_word() == "term":
                cuts.append((text.line + 1, "term", *text.read(("term", NAME, fraction, fraction))))
    return cuts


def gmic(f, x):
    """The mixed-integer cut at the fractional part of x."""
    rest = x % 1
    return rest / f if rest <= f else (1 - rest) / (1 - f)


def check_cuts(function, _version, cuts, _end):
    """Without a function it is the mixed-integer cut for the fractional part of each right side."""
    names, common, f = set(), 1, None
    own_f = Fraction(function.place, function.order) if function else None
    for line, kind, name, number, last in cuts:
        if kind != "term":
            f, names, common = number % 1, {name}, 1
            fits = {
                "cut": f == own_f if function else f != 0,
                "integral": f == 0,
                "other": own_f not in (None, f) and f != 0,
            }
            demand(fits[last or "cut"], line, "fraction")
        if kind != "skip":
            common = lcm(common, number.denominator)
            demand(abs(number) <= 2**31 and common <= 2**31 - 1, line, "limit")
        if kind == "term":
            demand(name not in names, line, "name")
            names.add(name)
            demand(last == (function.at(number) if function else gmic(f, number)), line, "value")


# ---- the whole text

CLAIMS = {
    "minimal": (lambda *_: None, lambda *_: None),
    "not-minimal": (read_violation, check_violation),
    "extreme": (read_cover_and_groups, check_extreme),
    "not-extreme": (read_halves, check_halves),
    "cut": (read_cuts, check_cuts),
}


def checked(data):
    """The claim of a proof text, which holds; or raises `Refused` or `Rejected`."""
    text = Text(data.decode("latin-1"))
    version = int(*text.read(("gj-proof", "[123]")))
    claims = {1: "|".join(CLAIMS), 2: "extreme", 3: "extreme|not-extreme"}
    (claim,) = text.read(("claim", claims[version]))
    read_more, check_more = CLAIMS[claim]
    function = None
    if claim == "cut" and text.next_word() == "rule":
        text.read(("rule", "gmic"))
    else:
        function = read_function(text)
    shown = read_more(text, function, version)
    text.read(("end",))
    if text.lines[text.line :] != [""]:
        text.line += 1
        text.refuse("tail")
    if function and claim != "not-minimal":
        demand(function.is_minimal(), 2, "minimal")
    if claim in ("extreme", "not-extreme") and version < 3:
        demand(function.is_continuous(), 2, "continuous")
    check_more(function, version, shown, text.line)
    return claim


def check(data):
    """The status and the answer to the bytes of a text."""
    if len(data) > LONGEST:
        return 3, "refused long"
    try:
        return 0, f"accepted {checked(data)}"
    except Rejected as fault:
        return 1, "rejected line {} {}".format(*fault.args)
    except Refused as fault:
        return 3, "refused line {} {}".format(*fault.args)


def read_file(words, check_text, usage):
    """Prints the answer to the one file that the words name, and gives the status."""
    if len(words) != 1 or words[0].startswith("-"):
        print(usage)
        return 2
    try:
        with open(words[0], "rb") as file:
            data = file.read()
    except OSError as error:
        print(f"{words[0]}: it cannot be read: {error.strerror}")
        return 4
    status, answer = check_text(data)
    print(answer)
    return status


if __name__ == "__main__":
    sys.exit(read_file(sys.argv[1:], check, __doc__))
