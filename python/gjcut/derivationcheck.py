#!/usr/bin/env python3
"""This checker is no proof. It is a plain program, as sure as you find it when you read it.

    python3 derivationcheck.py FILE

It checks a derivation: a mixed-integer program, and steps, each with an inequality that it claims
and with what that is made of. It prints `accepted derivation` (status 0), or the first step that
does not show its claim, `rejected line N CAUSE` (1), or the line at fault, `refused line N REASON`
(3). A function in front must be minimal (else status 9) and continuous (8).

It is for who has no proved program. It was written from docs/formats.md and docs/mathematics.md,
and shares no line with that. It needs Python 3.9, and `proofcheck.py` beside it. Its numbers are of
any size, so it never says `wide`.

Words: an inequality says that a sum of coefficients times columns is at least a right side. A known
inequality is a constraint, or the claim of an earlier step.
"""
import re
import sys
from dataclasses import dataclass, field
from fractions import Fraction
from math import ceil, floor, lcm
from typing import NamedTuple, Optional

try:
    from .proofcheck import LONGEST, WIDEST, Function, Refused, gmic, read_file
except ImportError:
    from proofcheck import LONGEST, WIDEST, Function, Refused, gmic, read_file

NAME, MOST, MOST_ENTRIES = "[!#-~]{1,255}", 10_000, 100_000
GREATEST_ORDER, GREATEST_VALUE, FINEST = 1000, 2**20, 2**31 - 1


class Wrong(Exception):
    """A step does not show its claim: the cause."""


# ---- numbers and lines


def lenient(word):
    """A number of a function, in any spelling, or None."""
    found = re.fullmatch(r"([+-]?)([0-9]+)(?:/([0-9]+)|\.([0-9]+))?", word)
    if not found:
        return None
    sign, top, bottom, behind = found.groups("")
    top, bottom = (top + behind).lstrip("0"), (bottom or "1" + "0" * len(behind)).lstrip("0")
    if bottom == "" or max(len(top), len(bottom)) > 39:
        return None
    top, bottom = int(sign + (top or "0")), int(bottom)
    return Fraction(top, bottom) if max(abs(top), bottom) <= WIDEST else None


DECIMAL = re.compile(r"([+-]?)([0-9]+)(?:\.([0-9]+))?[eE]([+-]?)([0-9]+)")
HEXADECIMAL = re.compile(r"([+-]?)0[xX]([0-9a-fA-F]+)(?:\.([0-9a-fA-F]+))?[pP]([+-]?)([0-9]+)")


def scaled(word):
    """A number with an exponent, decimal or as C prints one in hexadecimal, or None. Its digits make
    a number of at most 2^127 - 1 without the point, and so do its parts in lowest terms."""
    for form, radix, base, step in (DECIMAL, 10, 10, 1), (HEXADECIMAL, 16, 2, 4):
        found = form.fullmatch(word)
        if found:
            break
    else:
        return None
    sign, front, behind, below, size = found.groups("")
    digits, size = (front + behind).lstrip("0") or "0", size.lstrip("0") or "0"
    if len(digits) > 39:
        return None
    top = int(digits, radix)
    if top == 0 or top > WIDEST:
        return Fraction(0) if top == 0 else None
    # No text has so many digits behind a point.
    size = int(size) if len(size) < 20 else 10**20
    power = (-size if below == "-" else size) - step * len(behind)
    # The power below divides the digits' number times the denominator.
    if abs(power) > 254:
        return None
    value = Fraction(top) * Fraction(base) ** power
    if max(value.numerator, value.denominator) > WIDEST:
        return None
    return -value if sign == "-" else value


def number(word):
    """A number of the program or of a step, in any spelling, or None."""
    value = lenient(word)
    return scaled(word) if value is None else value


def bound(word):
    """A bound of a column; "-" is none."""
    return word if word == "-" else number(word)


def positive(word):
    value = number(word)
    return value if value is not None and value > 0 else None


def count(word):
    value = lenient(word) if word.isdigit() else None
    return None if value is None else int(value)


class Lines:
    """The lines of a text, but for blank ones and comments. `line` is the number of the last one
    that was read, and `words` are those of the next; after the last there is an empty word."""

    def __init__(self, text):
        lines = text.replace("\r\n", "\n").split("\n")
        words = [re.split("[ \t]+", line.strip(" \t")) for line in lines]
        self.kept = [(i, each) for i, each in enumerate(words, 1) if each[0][:1] not in ("", "#")]
        self.kept.append((len(lines), [""]))
        self.at, self.line = 0, 0

    @property
    def words(self):
        return self.kept[self.at][1]

    def refuse(self, reason):
        raise Refused(self.line, reason)

    def read(self, *forms):
        """What the next line says after its first word, in one of these forms. A form has a pattern
        for each word, or what reads it as a number. First the words are judged, then the numbers.
        """
        self.line, words = self.kept[self.at]
        for form in forms:
            pairs = list(zip(words, form))
            fits = (callable(part) or re.fullmatch(part, word) for word, part in pairs)
            if len(words) == len(form) and all(fits):
                break
        else:
            self.refuse("form")
        said = [part(word) if callable(part) else word for word, part in pairs]
        if None in said:
            self.refuse("number")
        self.at += 1
        return said[1:]


# ---- the function in front


def function_of(f, points):
    """The function with these limits and values, at each multiple of 1/q one number or three."""
    sides = [point * (3 // len(point)) for point in points]
    scale = lcm(*(value.denominator for point in sides for value in point))
    whole = [[int(value * scale) for value in point] for point in sides]
    return Function(int(f * len(points)), scale, whole)


def test_values(lines, values, scale):
    """The common denominator, with these values."""
    for value in values:
        scale = lcm(scale, value.denominator)
        if abs(value) > GREATEST_VALUE:
            lines.refuse("large")
        if scale > FINEST:
            lines.refuse("fine")
    return scale


def read_values(lines):
    (order,) = lines.read(("order", count))
    if not 2 <= order <= GREATEST_ORDER:
        lines.refuse("order")
    (f,) = lines.read(("f", lenient))
    if not (0 < f < 1 and (f * order).denominator == 1):
        lines.refuse("place")
    points, scale = [], 1
    for _ in range(order):
        points.append(lines.read(("point", lenient), ["point", *[lenient] * 3]))
        scale = test_values(lines, points[-1], scale)
    lines.read(("end",))
    return function_of(f, points)


def read_breakpoints(lines):
    (f,) = lines.read(("f", lenient))
    if not 0 < f < 1:
        lines.refuse("place")
    order, scale, breaks = f.denominator, 1, []
    if order > GREATEST_ORDER:
        lines.refuse("pieces")
    while not breaks or lines.words[0] == "point":
        x, *values = lines.read(("point", lenient, lenient), ["point", *[lenient] * 4])
        if (x <= breaks[-1][0] if breaks else x != 0) or x >= 1:
            lines.refuse("break")
        order = lcm(order, x.denominator)
        if order > GREATEST_ORDER:
            lines.refuse("pieces")
        scale = test_values(lines, values, scale)
        breaks.append((x, values))
    lines.read(("end",))
    points = list(between(breaks, order))
    if lcm(*(value.denominator for point in points for value in point)) > FINEST:
        lines.refuse("fine")
    return function_of(f, points)


def between(breaks, order):
    """The values at all multiples of 1/order: at the breakpoints, and on the lines from each to the
    next, the last of which goes to the first, at 1."""
    for (x, values), (after, to) in zip(breaks, [*breaks[1:], (1, breaks[0][1])]):
        yield values
        for i in range(int(x * order) + 1, int(after * order)):
            yield [values[-1] + (Fraction(i, order) - x) / (after - x) * (to[0] - values[-1])]


def read_family(lines):
    kind, *said = lines.read(("family", "gmic|half", lenient), ("family", "two-slope", count, ".*"))
    f = two_slope_place(lines, *said) if kind == "two-slope" else said[0]
    if not 0 < f < 1:
        lines.refuse("bad-f")
    order, half = f.denominator, Fraction(1, 2)
    if order > GREATEST_ORDER:
        lines.refuse("pieces")
    if kind == "two-slope":
        points = two_slope_values(lines, *said)
    elif kind == "gmic":
        points = [[gmic(f, Fraction(i, order))] for i in range(order)]
    else:
        points = [[half] for _ in range(order)]
        points[0], points[int(f * order)] = [half, Fraction(0), half], [half, Fraction(1), half]
    lines.read(("end",))
    return function_of(f, points)


def two_slope_place(lines, k, signs):
    if set(signs) - set("+-"):
        lines.refuse("signs")
    if len(signs) > GREATEST_ORDER:
        lines.refuse("pieces")
    if len(signs) < 2:
        lines.refuse("signs")
    return Fraction(k, len(signs))


def two_slope_values(lines, k, signs):
    """Each rise is as many steps high as there are falls, and the other way round; 1 at f."""
    rises, falls = signs.count("+"), signs.count("-")
    heights = [0]
    for sign in signs[:-1]:
        heights.append(heights[-1] + (falls if sign == "+" else -rises))
    if rises == 0 or falls == 0 or heights[k] <= 0:
        lines.refuse("slopes")
    return [[Fraction(height, heights[k])] for height in heights]


def read_function(lines):
    if lines.words == ["gj-function", "2"]:
        lines.read(("gj-function", "2"))
        return read_breakpoints(lines)
    lines.read(("gj-function", "1"))
    return read_family(lines) if lines.words[0] == "family" else read_values(lines)


# ---- the text


class Column(NamedTuple):
    """Whether it is whole, and its bounds; those of a whole column are rounded inwards."""

    is_whole: bool
    lower: Optional[Fraction]
    upper: Optional[Fraction]


class Known(NamedTuple):
    """A sum of entries, each a column and a value, is at most, at least or equal to the right side.
    """

    entries: list
    sense: str
    right: Fraction


@dataclass
class Step:
    """What a step is made of, by which rule, and what it claims: the right side and the terms."""

    line: int
    rule: str
    multipliers: dict = field(default_factory=dict)
    at_upper: set = field(default_factory=set)
    factor: Optional[Fraction] = None
    right: Optional[Fraction] = None
    terms: dict = field(default_factory=dict)

    @property
    def has_claim(self):
        return self.right is not None


# The lines of a step. The number of a claim is judged after its place.
STEP_FORMS = (
    ("by", NAME, number), ("upper", NAME), ("times", positive), ("claim", ".*"),
    ("term", NAME, number),
)  # fmt: skip


def column_of(kind, lower, upper):
    lower, upper = (None if each == "-" else each for each in (lower, upper))
    if kind == "whole":
        lower = None if lower is None else Fraction(ceil(lower))
        upper = None if upper is None else Fraction(floor(upper))
    return Column(kind == "whole", lower, upper)


class Derivation:
    """The text after the function: `columns` and `known` inequalities by their names, and `steps`.
    The known ones are the constraints; the claim of each step is put to them when it is shown."""

    def __init__(self, lines, function):
        self.lines, self.function = lines, function
        self.columns, self.known, self.steps, self.entries = {}, {}, {}, 0
        lines.read(("gj-derivation", "1"))
        readers = {
            "column": self.read_column, "constraint": self.read_constraint, "entry": self.read_entry
        }
        while lines.words[0] not in ("step", "end"):
            # No form fits another word.
            readers.get(lines.words[0], lines.read)()
        while lines.words[0] != "end":
            self.read_step()
        lines.read(("end",))
        if lines.words != [""]:
            lines.line = lines.kept[lines.at][0]
            lines.refuse("tail")

    def ask(self, may_stand, reason):
        if not may_stand:
            self.lines.refuse(reason)

    def read_column(self):
        name, *said = self.lines.read(("column", NAME, "whole|continuous", bound, bound))
        self.ask(len(self.columns) < MOST, "large")
        self.ask(name not in self.columns, "place")
        self.columns[name] = column_of(*said)

    def read_constraint(self):
        name, sense, right = self.lines.read(("constraint", ".*", "<=|>=|=", number))
        self.ask(re.fullmatch(NAME, name), "form")
        self.ask(len(self.known) < MOST, "large")
        self.ask(name not in self.known, "place")
        self.known[name] = Known([], sense, right)

    def read_entry(self):
        """An entry of the last constraint. Entries in one column add up."""
        name, value = self.lines.read(("entry", ".*", number))
        self.ask(self.known, "form")
        self.ask(self.entries < MOST_ENTRIES, "large")
        self.ask(name in self.columns, "place")
        next(reversed(self.known.values())).entries.append((name, value))
        self.entries += 1

    def read_step(self):
        name, rule = self.lines.read(("step", NAME, "linear|gmic|function"))
        self.ask(rule != "function" or self.function, "form")
        self.ask(len(self.steps) < MOST, "large")
        self.ask(name not in self.known and name not in self.steps, "place")
        step = Step(self.lines.line, rule)
        while not (step.has_claim and self.lines.words[0] in ("step", "end")):
            self.read_line_of(step)
        self.steps[name] = step

    def read_line_of(self, step):
        """A line of the step. Each name stands once among those of its kind, and the terms stand
        after the claim, which is the one line that is judged so before its number is."""
        kind = self.lines.words[0]
        said = self.lines.read(*STEP_FORMS)
        self.ask(step.has_claim == (kind == "term"), "form")
        if kind == "by":
            name, multiplier = said
            self.ask(name in self.known or name in self.steps, "place")
            self.ask(name not in step.multipliers, "place")
            step.multipliers[name] = multiplier
        elif kind == "upper":
            self.ask(step.rule != "linear", "form")
            self.ask(said[0] in self.columns and said[0] not in step.at_upper, "place")
            step.at_upper.add(said[0])
        elif kind == "times":
            self.ask(step.factor is None, "form")
            (step.factor,) = said
        elif kind == "claim":
            step.right = number(said[0])
            self.ask(step.has_claim, "number")
        else:
            name, value = said
            self.ask(name in self.columns and name not in step.terms, "place")
            step.terms[name] = value

    # ---- what a step shows

    def in_order(self, names):
        """These names of columns, in the order of the columns."""
        place = self.places
        return sorted(names, key=place.__getitem__)

    def check(self):
        """Each claim follows from the constraints and the claims before it."""
        self.places = {name: i for i, name in enumerate(self.columns)}
        for name, step in self.steps.items():
            try:
                self.check_step(step)
            except Wrong as wrong:
                return 1, f"rejected line {step.line} {wrong}"
            self.known[name] = Known(list(step.terms.items()), ">=", step.right)
        return 0, "accepted derivation"

    def check_step(self, step):
        coefficients, right = self.base(step)
        factor = step.factor or 1
        right *= factor
        for name in self.in_order({*coefficients, *step.terms}):
            column = self.columns[name]
            change = step.terms.get(name, 0) - factor * coefficients.get(name, 0)
            if change != 0:
                turned = column.lower if change > 0 else column.upper
                if turned is None:
                    raise Wrong(f"bound {name}")
                right += change * turned
        if all(self.is_whole_term(*each) for each in step.terms.items()):
            right = Fraction(ceil(right))
        if step.right > right:
            raise Wrong(f"right {right}")

    def is_whole_term(self, name, value):
        return value.denominator == 1 if self.columns[name].is_whole else value == 0

    def base(self, step):
        """The inequality from which the step begins."""
        used = [(m, self.known[name]) for name, m in step.multipliers.items()]
        if step.rule == "linear":
            for name, m in step.multipliers.items():
                sense = self.known[name].sense
                if (m > 0 and sense == "<=") or (m < 0 and sense == ">="):
                    raise Wrong(f"sign {name}")
        total = added((name, m * value) for m, each in used for name, value in each.entries)
        right = sum((m * each.right for m, each in used), Fraction(0))
        return (total, right) if step.rule == "linear" else self.cut(step, used, total, right)

    def cut(self, step, used, total, right):
        """The cut of the row of the multipliers, in the columns of the program. A piece of the row
        is an entry, whether what it stands at is whole, and an inequality: what stands there is how
        far the sum of that is above its right side."""
        pieces = [self.slack(m, each) for m, each in used if m != 0 and each.sense != "="]
        for name in self.in_order(total):
            column, entry = self.columns[name], total[name]
            if entry == 0 or (column.is_whole and entry.denominator == 1):
                continue
            if column.lower is None and column.upper is None:
                raise Wrong(f"free {name}")
            prefers_upper = name in step.at_upper and column.upper is not None
            sign = -1 if column.lower is None or prefers_upper else 1
            turned = column.lower if sign == 1 else column.upper
            pieces.append((sign * entry, column.is_whole, [(name, sign)], sign * turned))
            right -= entry * turned
        coefficient_of = self.rule(step.rule, right % 1)
        cut, at_least = [], Fraction(1)
        for entry, is_whole, entries, against in pieces:
            coefficient = coefficient_of(entry, is_whole)
            cut += [(name, coefficient * value) for name, value in entries]
            at_least += coefficient * against
        return added(cut), at_least

    def slack(self, multiplier, known):
        """A multiple of the slack of a constraint: whole if all its columns are."""
        is_whole = all(self.columns[name].is_whole for name, _ in known.entries)
        numbers = [known.right, *(value for _, value in known.entries)] if is_whole else []
        scale = lcm(*(each.denominator for each in numbers)) * (-1 if known.sense == "<=" else 1)
        entries = [(name, scale * value) for name, value in known.entries]
        return -multiplier / scale, is_whole, entries, scale * known.right

    def rule(self, rule, f):
        """The coefficient of an entry: at a whole number the value of the rule, else by its slope.
        """
        if f == 0:
            raise Wrong("integral")
        if rule == "gmic":
            up, down = 1 / f, 1 / (1 - f)
            return lambda x, is_whole: gmic(f, x) if is_whole else x * up if x > 0 else -x * down
        function, step = self.function, Fraction(1, self.function.order)
        if f != Fraction(function.place, function.order):
            raise Wrong("other")
        up, down = function.at(step) / step, function.at(-step) / step
        return lambda x, is_whole: function.at(x) if is_whole else x * up if x > 0 else -x * down


def added(entries):
    """The sum of the entries of each column."""
    total = {}
    for name, value in entries:
        total[name] = total.get(name, 0) + value
    return total


def check(data):
    """The status and the answer to the bytes of a text."""
    if len(data) > LONGEST:
        return 3, "refused long"
    lines = Lines(data.decode("latin-1"))
    try:
        function = read_function(lines) if lines.words[0] == "gj-function" else None
        derivation = Derivation(lines, function)
    except Refused as fault:
        return 3, "refused line {} {}".format(*fault.args)
    if function and not function.is_minimal():
        return 9, "no function"
    if function and not function.is_continuous():
        jumps = (i for i, sides in enumerate(zip(*function.limits.values())) if len(set(sides)) > 1)
        return 8, f"not continuous {Fraction(next(jumps), function.order)}"
    return derivation.check()


if __name__ == "__main__":
    sys.exit(read_file(sys.argv[1:], check, __doc__))
