"""All that is wrong with a function that is not minimal. The program shows the first violation;
further ones are looked for here, and `check` of the library has to accept each."""
import itertools
import math
from fractions import Fraction
from typing import Dict, Iterator, List, Tuple

from ._faces import CORNERS, WAYS
from ._functions import Function
from ._library import call
from ._verdicts import Violation, lines_of_proof


class _Values:
    """The values and limits of a function at the multiples of 1/q, over one denominator."""

    def __init__(self, function: Function):
        self.q = function.order
        self.f = int(function.f * self.q)
        points = [function.limits(Fraction(i, self.q)) for i in range(self.q)]
        numbers = [number for point in points for number in point[1:]]
        self.one = math.lcm(*(number.denominator for number in numbers))
        whole = [int(number * self.one) for number in numbers]
        self.sides: Dict[str, List[int]] = dict(zip("-0+", (whole[i::3] for i in range(3))))
        self.is_continuous = function.is_continuous

    def at(self, i: int, side: str = "0") -> int:
        return self.sides[side][i % self.q]

    def slack(self, a: int, b: int, way: str = "000") -> int:
        return self.at(a, way[0]) + self.at(b, way[1]) - self.at(a + b, way[2])

    def place(self, i) -> Fraction:
        return Fraction(i, self.q) % 1


def _least_weight(failing: int, others: List[int]) -> int:
    """The least h for which the weight 1/h at the other corners, and the rest at the failing one,
    gives a number below 0."""
    count = len(others)
    return max(count + 1, count + sum(others) // -failing + 1)


def _candidates(values: _Values) -> Iterator[Violation]:
    """The violations, in the order of the tests (docs/mathematics.md): at multiples of 1/q, and
    beside those where only a limit fails."""
    indices, place = range(values.q), values.place
    if values.at(0) != 0:
        yield Violation("zero")
    yield from (Violation("negative", place(i)) for i in indices if values.at(i) < 0)
    if not values.is_continuous:
        yield from _negative_limits(values)
    odd = [i for i in indices if values.at(i) + values.at(values.f - i) != values.one]
    # Of two places that add up to f the first one.
    pairs = (i for i in odd if i <= (values.f - i) % values.q)
    yield from (Violation("asymmetric", place(i)) for i in pairs)
    if not values.is_continuous:
        yield from _asymmetric_limits(values, set(odd))
    for a in indices:
        for b in range(a, values.q):
            if values.slack(a, b) < 0:
                yield Violation("superadditive", place(a), place(b))
    if not values.is_continuous:
        yield from _superadditive_limits(values)


def _negative_limits(values: _Values) -> Iterator[Violation]:
    for i in range(values.q):
        ends = [(i, "+"), (i + 1, "-")]
        for (at, side), (other, other_side) in (ends, ends[::-1]):
            limit = values.at(at, side)
            if limit < 0 <= values.at(at):
                h = _least_weight(limit, [values.at(other, other_side)])
                yield Violation("negative", values.place(at + Fraction(other - at, h)))


def _asymmetric_limits(values: _Values, odd: set) -> Iterator[Violation]:
    for i in range(values.q):
        ends = [(i, "+", "-"), (i + 1, "-", "+")]
        sums = [
            values.at(at, side) + values.at(values.f - at, other) - values.one
            for at, side, other in ends
        ]
        is_first = i <= (values.f - i - 1) % values.q and not {i, (i + 1) % values.q} & odd
        if any(sums) and is_first:
            part = Fraction(1, 2) if sum(sums) else Fraction(1, 4)
            yield Violation("asymmetric", values.place(i + part))


def _superadditive_limits(values: _Values) -> Iterator[Violation]:
    seen = set()
    for a, b in itertools.product(range(values.q), repeat=2):
        for kind, ways in WAYS.items():
            corners = [(a + x, b + y) for x, y in CORNERS[kind]]
            limits = [values.slack(x, y, way) for (x, y), way in zip(corners, ways)]
            for i, limit in enumerate(limits):
                if limit >= 0 or values.slack(*corners[i]) < 0:
                    continue
                h = _least_weight(limit, limits[:i] + limits[i + 1 :])
                x, y = _near(corners, i, h)
                if (y, x) not in seen:
                    seen.add((x, y))
                    yield Violation("superadditive", values.place(x), values.place(y))


def _near(corners: List[Tuple[int, int]], i: int, h: int) -> Tuple[Fraction, Fraction]:
    """The point with the weight 1/h at each other corner, and the rest at this one."""
    weights = [Fraction(1, h)] * len(corners)
    weights[i] = 1 - sum(weights[1:])
    x, y = (sum(weight * corner[k] for weight, corner in zip(weights, corners)) for k in (0, 1))
    return Fraction(x), Fraction(y)


def violations_of(function: Function, function_lines: List[str]) -> Iterator[Violation]:
    """The violations of a function, each of which `check` accepts. The lines are those of the
    function in a proof text."""
    for found in _candidates(_Values(function)):
        words = [found.kind, *(str(x) for x in found[1:] if x is not None)]
        text = lines_of_proof("not-minimal", function_lines, [" ".join(words)])
        if call("check", text).status == 0:
            yield found
