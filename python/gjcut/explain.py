"""What a proof text shows, line by line, in words."""
from fractions import Fraction
from typing import Dict, Iterator, List, Tuple

from ._arguments import number, text as text_of
from ._explain_derivation import DerivationReader, lines_of
from ._faces import Cover, Face, joining_edge, merged, slacks
from ._functions import Function, function as a_function, printed, short
from ._verdicts import function_of as _function_of
from .sentences import is_derivation

CLAIMS = {
    "minimal": "the function is minimal",
    "not-minimal": "the function is not minimal",
    "extreme": "the function is extreme",
    "not-extreme": "the function is minimal and not extreme",
    "cut": "each cut holds at all solutions of its row",
    "derivation": "each claim follows, and holds at all feasible points",
}
# How many points each violation has, and why a row has no cut.
VIOLATIONS = {"zero": 0, "negative": 1, "asymmetric": 1, "superadditive": 2}
WHYS = ("integral", "other")
# A list of places is cut off behind so many.
MOST_PLACES = 20
SIDES = {"-": "the limit from the left", "0": "the value", "+": "the limit from the right"}


def function_of(text: str) -> Function:
    """The function in a proof text."""
    found = _function_of(text)
    if found is None:
        raise ValueError("text: it has no function")
    return found


def function_in_words(function: Function) -> str:
    """Which function it is: f and the breakpoints."""
    points = a_function(function).breakpoints
    if len(points) > MOST_PLACES:
        return f"f = {function.f}, {len(points)} breakpoints, order {function.order}"
    shown = [f"({', '.join(map(str, short(point)))})" for point in points]
    return f"f = {function.f}, breakpoints {', '.join(shown)}"


def violation_in_words(function: Function, kind: str, *at: Fraction) -> str:
    """What is wrong with a function at the points of a violation."""
    a_function(function)
    if len(at) != VIOLATIONS.get(text_of(kind, "kind")):
        raise ValueError(f"kind: there is no violation {kind!r} at {len(at)} points")
    at = tuple(number(x, "at", i) for i, x in enumerate(at))
    values = [function.at(x) for x in at]
    if kind == "zero":
        return f"its value at 0 is {function.at(0)}, not 0"
    if kind == "negative":
        return f"its value at {at[0]} is {values[0]}, below 0"
    if kind == "asymmetric":
        other = (function.f - at[0]) % 1
        return (
            f"it is not symmetric, since its values at {at[0]} and at f - {at[0]} = {other} are "
            f"{values[0]} and {function.at(other)}, and do not add up to 1"
        )
    total = (at[0] + at[1]) % 1
    return (
        f"it is not subadditive, since its values at {at[0]} and {at[1]} are {values[0]} and "
        f"{values[1]}, and add up to less than {function.at(total)}, its value at {total}"
    )


class _Reader:
    """The words of one line after another."""

    def __init__(self, text: str):
        self.text, self.claim, self.order, self.f = text, "", 1, Fraction(0)
        self.points, self.pairs, self.halves, self.components = 0, 0, (1, 1), 0
        # Whether it is a text 3, whose unknowns are not slopes alone; and how many of them stand
        # before the slopes.
        self.is_of_jumps, self.jumps = False, 0
        # How many rows have ended, and the component that each interval is in.
        self.rows, self.component_of = 0, {}
        self.function = None

    def at(self, i: int) -> str:
        return str(Fraction(i, self.order))

    def interval(self, i: int) -> str:
        return f"[{self.at(i)}, {self.at(i + 1)}]"

    def words(self, line: str) -> str:
        """What a line says."""
        word, *rest = line.split(" ")
        found = getattr(self, "of_" + word.replace("-", "_"), None)
        return found(*rest) if found else ""

    def of_gj_proof(self, version: str) -> str:
        self.is_of_jumps = version == "3"
        kinds = {"1": "a proof", "2": "a proof whose rows are given by residues"}
        return kinds.get(version, "a proof of a function that may jump")

    def of_claim(self, claim: str) -> str:
        self.claim = claim
        more = {
            "minimal": "; `check` makes every test of minimality itself, so nothing more is shown",
            "extreme": "; that it is minimal, `check` tests itself",
        }
        return f"it claims that {CLAIMS.get(claim, claim)}{more.get(claim, '')}"

    def of_order(self, order: str) -> str:
        self.order = int(order)
        self.jumps = 2 * self.order - 1 if self.is_of_jumps else 0
        return f"the function is affine between the multiples of 1/{order}"

    def of_f(self, f: str) -> str:
        self.f = printed(f)
        return "where a minimal function is 1"

    def of_point(self, *values: str) -> str:
        place, self.points = self.at(self.points), self.points + 1
        if len(values) == 1:
            return f"the value at {place}"
        return f"at {place} the limit from the left, the value, and the limit from the right"

    def of_rule(self, _rule: str) -> str:
        return "the mixed-integer cut of Gomory, for the fractional part of each right side"

    def of_modulus(self, modulus: str) -> str:
        return f"the rows are read modulo {modulus}"

    def of_zero(self) -> str:
        return violation_in_words(function_of(self.text), "zero")

    def of_negative(self, x: str) -> str:
        return violation_in_words(function_of(self.text), "negative", printed(x))

    def of_asymmetric(self, x: str) -> str:
        return violation_in_words(function_of(self.text), "asymmetric", printed(x))

    def of_superadditive(self, x: str, y: str) -> str:
        return violation_in_words(function_of(self.text), "superadditive", printed(x), printed(y))

    def of_cover(self, i: str, j: str, kind: str, a: str, b: str) -> str:
        face = self.face_in_words(i, j, Face(kind, self.order, int(a), int(b)))
        interval = self.interval(int(i))
        if i == j:
            component, self.components = self.components, self.components + 1
            self.component_of[i] = component
            so = f"{interval}, on which it projects, is covered, and begins component {component}"
        else:
            component = self.component_of[i] = self.component_of.get(j, 0)
            other = self.interval(int(j))
            so = f"{interval} is covered, with the slope of {other}, in component {component}"
        return f"{face}; so {so}"

    def face_in_words(self, i: str, j: str, face: Face) -> str:
        """Why the face of a cover line covers the interval i, as j is covered."""
        corners = _places(face.corners)
        shape = "triangle" if face.kind in ("lower", "upper") else "edge"
        if not self.is_of_jumps:
            return f"on the {shape} with the corners {corners} the values add up to that of the sum"
        if self.function is None:
            self.function = function_of(self.text)
        left, other = Fraction(int(i), self.order), Fraction(int(j), self.order)
        ends = left + Fraction(1, self.order), other + Fraction(1, self.order)
        edge = joining_edge(self.function, Cover((left, ends[0]), (other, ends[1]), face))
        if any(slacks(self.function, face)) and edge:
            return (
                f"from the inside of the {shape} with the corners {corners} the slack tends to 0 "
                f"along its edge with the ends {_places(edge)}"
            )
        inside = f"inside of the {shape} with the corners {corners}"
        return f"{inside} the values add up to that of the sum"

    def of_row(self, *said: str) -> str:
        if said == ("period",):
            return "an equation for a perturbation, which has one slope a component: it is 0 at 1"
        if said == ("f",):
            return f"an equation: it is 0 at {self.f}"
        a, b = map(int, said[:2])
        total = self.at((a + b) % self.order)
        if len(said) == 3:
            x, y, z = (SIDES[side] for side in said[2])
            return (
                f"an equation: {x} at {self.at(a)} and {y} at {self.at(b)} add up to {z} at "
                f"{total}, like the function's"
            )
        places = f"{self.at(a)} and {self.at(b)}"
        return f"an equation: its values at {places} add up to that at {total}, like the function's"

    def unknown(self, column: str) -> str:
        """What an equation is solved for."""
        at, odd = divmod(int(column), 2)
        if int(column) >= self.jumps:
            return f"the slope of component {int(column) - self.jumps}"
        if odd:
            return f"the value at {self.at(self.order - 1 - at)}"
        return f"the limit from the right at {self.at(self.order - 1 - at)}"

    def of_reduce(self, column: str) -> str:
        return f"{self.unknown(column)} is taken out, by the equation solved for it"

    def of_pivot(self, column: str) -> str:
        self.rows += 1
        return f"what is left is solved for {self.unknown(column)}"

    def of_halves(self, order: str, scale: str) -> str:
        self.halves = int(order), int(scale)
        numbers = "values and limits" if self.is_of_jumps else "values"
        return (
            f"two minimal functions by their {numbers} at the multiples of 1/{order}, in parts of "
            f"1/{scale}; they are different, and their average is the function"
            + self.difference_in_words()
        )

    def difference_in_words(self) -> str:
        """Where the halves differ, and why the function has a perturbation."""
        order, scale = self.halves
        lines = [line.split(" ")[1:] for line in self.text.split("\n") if line[:5] == "pair "]
        pairs = [[int(word) for word in words] for words in lines]
        differences = [_difference(pair) for pair in pairs]
        places = [str(Fraction(i, order)) for i, each in enumerate(differences) if any(each)]
        shown = ", ".join(places[:MOST_PLACES]) + (", .." if len(places) > MOST_PLACES else "")
        said = f". They differ at {len(places)} of {len(pairs)} places: {shown}"
        if len(pairs) != order or order % self.order:
            return said
        bent, slopes = _shape_of(differences, self.order)
        if bent:
            which = ", ".join(f"[{left}, {right}]" for left, right in merged(bent))
            return f"{said}. Their difference bends inside of {which}: there it is uncovered"
        parts = []
        for rise, intervals in slopes.items():
            where = ", ".join(f"[{left}, {right}]" for left, right in merged(intervals))
            parts.append(f"{Fraction(rise * self.order, 2 * scale)} on {where}")
        unknowns = "values, limits and slopes" if self.is_of_jumps else "slopes"
        jumps = [Fraction(i, order) for i, each in enumerate(differences) if len(set(each)) > 1]
        more = f", and jumps at {', '.join(map(str, jumps))}" if jumps else ""
        return (
            f"{said}. Their difference bends nowhere between multiples of 1/{self.order}, so that "
            f"the equations for the {unknowns} of a perturbation leave a kernel: half the "
            f"difference has the slopes {'; '.join(parts)}{more}"
        )

    def of_pair(self, *said: str) -> str:
        order, scale = self.halves
        place, self.pairs = Fraction(self.pairs, order), self.pairs + 1
        numbers = [Fraction(int(word), scale) for word in said]
        halves = numbers[: len(said) // 2], numbers[len(said) // 2 :]
        shown = [f"({', '.join(map(str, half))})" if half[1:] else str(half[0]) for half in halves]
        differs = ", which differ" if halves[0] != halves[1] else ""
        return f"at {place}: {shown[0]} and {shown[1]}{differs}"

    def of_skip(self, name: str, right: str, why: str) -> str:
        return f"the row of {name} gives no cut, since {skipped_in_words(right, why)}"

    def of_cut(self, name: str, right: str) -> str:
        part = printed(right) % 1
        return (
            f"the cut of the row of {name}, whose right side {right} has the fractional part "
            f"{part}: the terms add up to at least 1"
        )

    def of_term(self, name: str, entry: str, coefficient: str) -> str:
        return f"{coefficient} times {name}; it is the value of the function at the entry {entry}"

    def of_end(self) -> str:
        if self.claim == "extreme":
            unknowns = "unknowns" if self.is_of_jumps else "components"
            each = "value, limit and slope" if self.is_of_jumps else "slope"
            return (
                f"as many equations as {unknowns}, {self.rows}: every {each} of a perturbation "
                "is 0, so there is none but 0"
            )
        return "the end of the proof"


Interval = Tuple[Fraction, Fraction]


def _places(places: Tuple[Tuple[Fraction, Fraction], ...]) -> str:
    """Points of the plane; a face beyond the square is written beyond it."""
    return ", ".join(f"({x}, {y})" for x, y in places)


def _difference(pair: List[int]) -> Tuple[int, int, int]:
    """By how much the first half is above the second: from the left, there, from the right."""
    first, second = pair[: len(pair) // 2], pair[len(pair) // 2 :]
    found = [a - b for a, b in zip(first, second)]
    return found[0], found[len(found) // 2], found[-1]


def _shape_of(
    differences: List[Tuple[int, int, int]], order: int
) -> Tuple[List[Interval], Dict[int, List[Interval]]]:
    """The intervals from a multiple of 1/order to the next in which the difference is not affine;
    and the others, by how much it rises there."""
    m, bent, slopes = len(differences) // order, [], {}
    for i in range(order):
        inner = differences[i * m + 1 : (i + 1) * m]
        end = differences[(i + 1) * m % len(differences)]
        path = [differences[i * m][2], *(each[1] for each in inner), end[0]]
        rises = {after - before for before, after in zip(path, path[1:])}
        interval = Fraction(i, order), Fraction(i + 1, order)
        if len(rises) > 1 or any(len(set(each)) > 1 for each in inner):
            bent.append(interval)
        else:
            slopes.setdefault(path[-1] - path[0], []).append(interval)
    return bent, slopes


def skipped_in_words(right: str, why: str) -> str:
    """Why the row with this right side has no cut, for the word "integral" or "other"."""
    shown = text_of(right, "right")
    if text_of(why, "why") not in WHYS:
        raise ValueError(f"why: {why!r} is none of {' and '.join(map(repr, WHYS))}")
    if why == "integral":
        return f"its right side {shown} is whole"
    return f"the fractional part of its right side {shown} is not f"


def sum_skipped_in_words(why: str, *name: str) -> str:
    """Why a sum of constraints has no cut, for the words that stand after `skip`."""
    words = text_of(why, "why"), *(text_of(each, "name", i) for i, each in enumerate(name))
    if words == ("integral",):
        return "the right side of the sum is whole"
    if words == ("other",):
        return "the fractional part of the right side of the sum is not f"
    if words == ("wide",):
        return "a number would have more than 127 bits"
    if why == "free" and len(name) == 1:
        return f"{name[0]} has no bound and cannot be left out, or its coefficient is off the grid"
    raise ValueError(f"why: there is no {' '.join(words)!r}")


def explained(text: str) -> Iterator[Tuple[str, str]]:
    """Each line of a proof text or a derivation that `check` reads, and what it says."""
    if is_derivation(text_of(text, "text")):
        reader, lines = DerivationReader(text), lines_of(text)
    else:
        reader, lines = _Reader(text), text.splitlines()
    return ((line, reader.words(line)) for line in lines)
