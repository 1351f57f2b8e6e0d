"""Inequalities in exact numbers: how a step moves them to other coefficients, and how data of many
digits are taken to few. Whatever is made here, a derivation says, and its checker judges."""
import math
from fractions import Fraction
from typing import Dict, Iterable, List, Mapping, NamedTuple, Optional, Sequence, Tuple

from ._refusals import WIDEST

Entries = Dict[int, Fraction]
# Numbers of a line of so many times the parts of a unit serve as they are.
SPARE = 16
# A bound with so small a denominator serves as it is.
FEW = 1000
# The finest grid of numbers of few digits.
FINEST = 2**100
# A double that is so near to a fraction with a small denominator, or to a decimal with so many
# places, is taken for it.
NEAR, PLACES = 1e-11, 7


class Missing(ValueError):
    """A coefficient would have to move where its column has no bound: the column."""

    def __init__(self, column: int):
        super().__init__(column)
        self.column = column


class Range(NamedTuple):
    """The bounds of a column as a text has them: those of a whole column are whole, and those of
    another have few digits, and are no stricter than those that are given."""

    is_whole: bool
    lower: Optional[Fraction]
    upper: Optional[Fraction]


class Step(NamedTuple):
    """How a line is made: the rule, the multipliers of lines, the columns at their upper bounds,
    and by what the inequality that is shown is multiplied."""

    rule: str
    multipliers: Mapping[str, Fraction]
    at_upper: Sequence[int] = ()
    factor: Fraction = Fraction(1)


class Line(NamedTuple):
    """The sum of the entries, each times its column, is in this sense to the right side. A line
    without a step is a constraint."""

    name: str
    entries: Entries
    sense: str
    right: Fraction
    step: Optional[Step] = None


def range_of(is_whole: bool, lower: Optional[Fraction], upper: Optional[Fraction]) -> Range:
    if is_whole:
        low = None if lower is None else Fraction(math.ceil(lower))
        return Range(True, low, None if upper is None else Fraction(math.floor(upper)))
    return Range(False, _outer(lower, -1), _outer(upper, 1))


def _outer(bound: Optional[Fraction], sign: int) -> Optional[Fraction]:
    """The bound, if it has few digits, or one of few digits that is less strict."""
    if bound is None or bound.denominator <= FEW:
        return bound
    parts = min(parts_for(bound, 2**20), Fraction(FINEST))
    return -sign * floored(-sign * bound, parts)


def is_writable(numbers: Iterable[Fraction]) -> bool:
    """Whether a text can have these numbers."""
    return all(max(abs(x.numerator), x.denominator) <= WIDEST for x in numbers)


def exponent(value: Fraction) -> int:
    """The least e for which the absolute value is at most 2**e; of 0 it is 0."""
    if value == 0:
        return 0
    top, bottom = abs(value.numerator), value.denominator
    e = top.bit_length() - bottom.bit_length() - 1
    while top > bottom << e if e >= 0 else top << -e > bottom:
        e += 1
    return e


def common_denominator(line: Line) -> int:
    return math.lcm(line.right.denominator, *(x.denominator for x in line.entries.values()))


def parts_for(largest: Fraction, parts: int) -> Fraction:
    """So many parts a unit has that the largest number has at most the given ones: 2**20 for a
    number near 1, and 2**10 for one near 1000."""
    return Fraction(parts) / Fraction(2) ** exponent(largest)


def largest(entries: Entries) -> Fraction:
    # Without the comparisons of fractions, which take long.
    scale = math.lcm(*(value.denominator for value in entries.values()))
    whole = (abs(x.numerator) * (scale // x.denominator) for x in entries.values())
    return Fraction(max(whole, default=0), scale)


def floored(value: Fraction, parts: Fraction) -> Fraction:
    return math.floor(value * parts) / parts


def is_small(line: Line, parts: int) -> bool:
    """Whether its numbers have few enough digits for a row."""
    return common_denominator(line) * largest(line.entries) <= SPARE * parts


def unit(line: Line, parts: int) -> Fraction:
    """Multipliers are multiples of this, so that they change no entry of the sum by much more than
    1/parts, and so that the products have few digits."""
    scale = common_denominator(line)
    return Fraction(scale, parts << exponent(scale * largest(line.entries)))


def fractions_near(given: Mapping[str, float], most: int) -> Optional[Dict[str, Fraction]]:
    """The fractions with few digits that these doubles are, if they are such, over at most so large
    a common denominator."""
    found, scale = {}, 1
    for name, value in given.items():
        near = _near(value)
        scale = 0 if near is None else math.lcm(scale, near.denominator)
        if not 0 < scale <= most:
            return None
        found[name] = near
    return found


def _near(given: float) -> Optional[Fraction]:
    room = NEAR * max(1.0, abs(given))
    decimal = round(given, PLACES)
    if abs(decimal - given) <= room:
        simple = Fraction(decimal).limit_denominator(FEW)
        return simple if abs(float(simple) - given) <= room else Fraction(repr(decimal))
    # The convergents of its continued fraction.
    before, top, bottom_before, bottom, rest = 1, math.floor(given), 0, 1, given % 1.0
    while abs(top / bottom - given) > room:
        if rest * FEW < 1.0:
            return None
        whole, rest = divmod(1.0 / rest, 1.0)
        before, top = top, int(whole) * top + before
        bottom_before, bottom = bottom, int(whole) * bottom + bottom_before
        if bottom > FEW:
            return None
    return Fraction(top, bottom)


def whole_factor(entries: Entries) -> Fraction:
    """The least factor that makes all of them whole numbers."""
    scale = math.lcm(*(value.denominator for value in entries.values()))
    return Fraction(scale, math.gcd(*(int(value * scale) for value in entries.values())))


def to_units(value: float, part: Fraction) -> Fraction:
    """The nearest multiple of the unit."""
    return round(value / float(part)) * part


def moved(given: Entries, right: Fraction, wanted: Entries, ranges: Sequence[Range]) -> Fraction:
    """The greatest right side for the wanted coefficients that follows from the given line."""
    for column in sorted({*given, *wanted}):
        change = wanted.get(column, 0) - given.get(column, 0)
        if change == 0:
            continue
        bound = ranges[column].lower if change > 0 else ranges[column].upper
        if bound is None:
            raise Missing(column)
        right += change * bound
    return right


def on_grid(value: Fraction, parts: Fraction, place: Range) -> Fraction:
    """A multiple of 1/parts to which the coefficient can move; itself if there is none."""
    scaled = value * parts
    if scaled.denominator == 1 or (place.lower is None and place.upper is None):
        return value
    if place.upper is None or (place.lower is not None and place.upper - place.lower > 1):
        return math.ceil(scaled) / parts
    return (math.floor(scaled) if place.lower is None else round(scaled)) / parts


def relaxed(line: Line, sign: int, name: str, ranges: Sequence[Range], parts: int) -> Line:
    """The line times the sign, with at least, in numbers of few digits."""
    given = {column: sign * value for column, value in line.entries.items()}
    grid = min(parts_for(largest(given), parts), Fraction(FINEST))
    found = {column: on_grid(value, grid, ranges[column]) for column, value in given.items()}
    found = {column: value for column, value in found.items() if value}
    right = floored(moved(given, sign * line.right, found, ranges), grid)
    return Line(name, found, ">=", right, Step("linear", {line.name: Fraction(sign)}))


def balanced(
    multipliers: Mapping[str, Fraction],
    lines: Mapping[str, Line],
    free: Iterable[int],
    wanted: Mapping[int, Fraction],
) -> Dict[str, Fraction]:
    """Multipliers near these in whose sum the free columns have the wanted coefficients, if there
    are some: a column without a bound can move nowhere. A column without one is to have 0."""
    found, places = dict(multipliers), set(free)
    equations: Dict[int, Dict[str, Fraction]] = {}
    for name in multipliers:
        for column, value in lines[name].entries.items():
            if column in places:
                equations.setdefault(column, {})[name] = value
    # Each equation gives one multiplier by the others, and is put into those behind it.
    solved: List[Tuple[str, Dict[str, Fraction], Fraction]] = []
    for column, equation in equations.items():
        products = (value * multipliers[name] for name, value in equation.items())
        rest = sum(products, -wanted.get(column, Fraction(0)))
        for name, other, amount in solved:
            factor = equation.pop(name, Fraction(0))
            if factor:
                rest -= factor * amount
                for each, value in other.items():
                    equation[each] = equation.get(each, Fraction(0)) - factor * value
        equation = {name: value for name, value in equation.items() if value}
        if not equation:
            continue
        chosen = min(equation, key=lambda name: _rank(lines[name], equation[name], found[name]))
        pivot = equation.pop(chosen)
        others = {name: value / pivot for name, value in equation.items()}
        solved.append((chosen, others, rest / pivot))
    changes: Dict[str, Fraction] = {}
    for name, others, amount in reversed(solved):
        known = (value * changes.get(each, Fraction(0)) for each, value in others.items())
        changes[name] = -amount - sum(known, Fraction(0))
    for name, change in changes.items():
        found[name] += change
    return found


def _rank(line: Line, value: Fraction, multiplier: Fraction) -> Tuple[int, bool, Fraction]:
    """The least is changed: a division by such a value makes the fewest digits, an equation takes
    any multiplier, and a large one keeps its sign."""
    digits = value.numerator.bit_length() + value.denominator.bit_length()
    return digits, line.sense != "=", -abs(multiplier)
