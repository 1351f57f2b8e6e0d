"""Numbers and functions."""
import bisect
import math
from fractions import Fraction
from typing import Iterable, Iterator, List, NamedTuple, Optional, Tuple, Union

from . import _arguments
from ._arguments import Number, items, kind_of, number, wrong


def printed(word: str) -> Fraction:
    """The fraction that the program has printed."""
    numerator, slash, denominator = word.partition("/")
    return Fraction(int(numerator), int(denominator)) if slash else Fraction(int(numerator))


def line(*words: object) -> str:
    return " ".join(map(str, words)) + "\n"


class Point(NamedTuple):
    """A place, the limit from the left there, the value, and the limit from the right."""

    place: Fraction
    left: Fraction
    value: Fraction
    right: Fraction


class Function:
    """A function of period 1 with the place f, affine between its points. It does not change.

    The calls of this package make it: `by_breakpoints`, `by_values`, `family`, `by_text` and
    others. Two functions are equal if they have one f and the same values and limits everywhere,
    however they were written. Functions with one f can be added, and multiplied and divided by
    numbers:

    >>> import gjcut
    >>> a = gjcut.by_breakpoints("1/2", [(0, 0), ("1/2", 1)])
    >>> b = gjcut.by_values("1/2", [0, "1/4", 1, "3/4"])
    >>> (a + b) / 2
    by_breakpoints('1/2', [(0, 0), ('1/4', '3/8'), ('1/2', 1), ('3/4', '5/8')])
    >>> ((a + b) / 2).at("1/8"), (a + a) / 2 == a
    (Fraction(3, 16), True)
    >>> [str(point.place) for point in b]
    ['0', '1/4', '1/2', '3/4']
    """

    __slots__ = ("_text", "_f", "_points", "_places", "_breakpoints")

    def __init__(
        self,
        text: Optional[str] = None,
        f: Optional[Fraction] = None,
        points: Optional[Iterable[Point]] = None,
    ):
        # Either a text that the program has printed, or f and the points; the other is made when it
        # is asked for.
        is_printed = text is not None
        if is_printed != (f is None) or is_printed != (points is None):
            how = "take by_text or by_breakpoints"
            raise TypeError(f"a Function has a text, or f and points: {how}")
        self._text = text if text is None else _arguments.text(text, "text")
        self._f = f if f is None else number(f, "f")
        self._points = None if points is None else tuple(_points(points))
        self._places: Optional[List[Fraction]] = None
        self._breakpoints: Optional[Tuple[Point, ...]] = None

    def __reduce__(self):
        if self._text is not None:
            return Function, (self._text,)
        return Function, (None, self._f, self._points)

    def _read(self) -> None:
        words = [each.split() for each in self._text.splitlines()]
        found = [each[1:] for each in words if each[0] == "point"]
        # Text 2 has the place of each point; text 1 has one for each multiple of 1/q.
        has_places, count, points = words[0] == ["gj-function", "2"], len(found), []
        if has_places:
            places = [printed(each[0]) for each in found]
        else:
            places = [Fraction(i, count) for i in range(count)]
        for place, each in zip(places, found):
            values = [printed(word) for word in each[has_places:]]
            points.append(Point(place, values[0], values[len(values) // 2], values[-1]))
        self._f = next(printed(each[1]) for each in words if each[0] == "f")
        self._points = tuple(points)

    @property
    def f(self) -> Fraction:
        """The place f, at which a minimal function is 1."""
        if self._f is None:
            self._read()
        return self._f

    @property
    def points(self) -> Tuple[Point, ...]:
        """The points: of what the program prints on a grid, those at all multiples of 1/q."""
        if self._points is None:
            self._read()
        return self._points

    @property
    def order(self) -> int:
        """The least common multiple of the denominators of f and of the places of the points.
        Commands read orders up to 1,000."""
        return math.lcm(self.f.denominator, *(point.place.denominator for point in self.points))

    @property
    def breakpoints(self) -> Tuple[Point, ...]:
        """The points at which the function is not affine, and the one at 0."""
        if self._breakpoints is None:
            kept: List[Point] = []
            for point, after in _with_next(self.points):
                is_smooth = point.left == point.value == point.right
                if not (kept and is_smooth and self._is_on_line(kept[-1], point, after)):
                    kept.append(point)
            self._breakpoints = tuple(kept)
        return self._breakpoints

    @staticmethod
    def _is_on_line(before: Point, point: Point, after: Point) -> bool:
        rise, run = point.value - before.right, point.place - before.place
        return rise * (after.place - point.place) == (after.left - point.value) * run

    @property
    def text(self) -> str:
        """A text of the function that every command reads if its order is at most 1,000: what the
        program has printed, or the breakpoints."""
        if self._text is None:
            self._text = self.breaks()
        return self._text

    def breaks(self) -> str:
        """A text of the function by its breakpoints, as one writes it.

        >>> import gjcut
        >>> print(gjcut.family("gmic", "3/5").breaks(), end="")
        gj-function 2
        f 3/5
        point 0 0
        point 3/5 1
        end
        """
        lines = ["gj-function 2\n", line("f", self.f)]
        lines += [line("point", *short(point)) for point in self.breakpoints]
        return "".join([*lines, "end\n"])

    @property
    def slopes(self) -> Tuple[Fraction, ...]:
        """The slope from each breakpoint to the next, from the last one to 1.

        >>> import gjcut
        >>> [str(slope) for slope in gjcut.family("gmic", "3/5").slopes]
        ['5/3', '-5/2']
        """
        return tuple(
            (after.left - point.right) / (after.place - point.place)
            for point, after in _with_next(self.breakpoints)
        )

    @property
    def is_continuous(self) -> bool:
        """Whether both limits at each point are the value."""
        return all(point.left == point.value == point.right for point in self.breakpoints)

    def at(self, x: Number) -> Fraction:
        """The value at x; f(x) is f.at(x).

        >>> import gjcut
        >>> gjcut.family("gmic", "3/5").at("-1/5")
        Fraction(1, 2)
        """
        points, x = self.points, number(x, "x") % 1
        if self._places is None:
            self._places = [point.place for point in points]
        i = bisect.bisect_right(self._places, x)
        left = points[i - 1]
        if left.place == x:
            return left.value
        right, end = (points[i], points[i].place) if i < len(points) else (points[0], 1)
        return left.right + (x - left.place) / (end - left.place) * (right.left - left.right)

    __call__ = at

    def limits(self, x: Number) -> Point:
        """The point at x: its place from 0 to below 1, the limits and the value."""
        x = number(x, "x") % 1
        value = self.at(x)
        i = bisect.bisect_right(self._places, x)
        return self.points[i - 1] if self._places[i - 1] == x else Point(x, value, value, value)

    def __eq__(self, other: object) -> bool:
        if not isinstance(other, Function):
            return NotImplemented
        return self.f == other.f and self.breakpoints == other.breakpoints

    def __hash__(self) -> int:
        return hash((self.f, self.breakpoints))

    def __iter__(self) -> Iterator[Point]:
        return iter(self.points)

    def __len__(self) -> int:
        return len(self.points)

    def __repr__(self) -> str:
        points = self.breakpoints
        if len(points) > 20:
            return f"<function with f = {self.f} and {len(points)} breakpoints>"
        shown = ", ".join(f"({', '.join(map(_shown, short(point)))})" for point in points)
        return f"by_breakpoints({_shown(self.f)}, [{shown}])"

    def _repr_png_(self) -> Optional[bytes]:
        return pictures().png_of(self)

    def _repr_svg_(self) -> Optional[str]:
        return pictures().svg_of(self)

    def __add__(self, other: "Function") -> "Function":
        if not isinstance(other, Function):
            return NotImplemented
        if self.f != other.f:
            raise ValueError(f"functions with f = {self.f} and f = {other.f} have no sum")
        places = sorted({point.place for point in (*self.breakpoints, *other.breakpoints)})
        points = []
        for place in places:
            pairs = list(zip(self.limits(place), other.limits(place)))
            points.append(Point(place, *(a + b for a, b in pairs[1:])))
        return Function(f=self.f, points=points)

    def __mul__(self, factor: Number) -> "Function":
        if isinstance(factor, Function):
            return NotImplemented
        n = number(factor, "factor")
        points = (Point(place, *(value * n for value in rest)) for place, *rest in self.points)
        return Function(f=self.f, points=points)

    __rmul__ = __mul__

    def __neg__(self) -> "Function":
        return self * -1

    def __sub__(self, other: "Function") -> "Function":
        return self + -other if isinstance(other, Function) else NotImplemented

    def __truediv__(self, divisor: Number) -> "Function":
        if isinstance(divisor, Function):
            return NotImplemented
        return self * (1 / number(divisor, "divisor"))


def pictures():
    """The module that draws, which imports this one."""
    from . import _plot

    return _plot


Rule = Union[Function, str]


def function(given: Function, argument: str = "function") -> Function:
    """The function that a caller hands over."""
    if isinstance(given, Function):
        return given
    how = "as by_breakpoints or by_text gives it"
    raise TypeError(f"{argument} is {kind_of(given)}, and no Function, {how}")


def text_of_rule(rule: Rule) -> Optional[str]:
    """The text of the function that a rule is; the rule "gmic" has none."""
    if not isinstance(rule, str):
        return function(rule, "rule").text
    if rule == "gmic":
        return None
    raise ValueError(f"rule: there is no rule {rule!r}: a rule is \"gmic\" or a Function")


def _points(given: Iterable[Point]) -> Iterator[Point]:
    for i, point in enumerate(items(given, "Points", "points")):
        if not isinstance(point, Point):
            raise wrong(point, "a Point", "points", i)
        yield point


def _with_next(points: Tuple[Point, ...]) -> Iterator[Tuple[Point, Point]]:
    """Each point with the next; with the last one the first, at 1."""
    return zip(points, [*points[1:], points[0]._replace(place=Fraction(1))])


def short(point: Point) -> Tuple[Fraction, ...]:
    """The place and the value, if that is both limits too; else all four."""
    place, left, value, right = point
    return (place, value) if left == value == right else point


def _shown(x: Fraction) -> str:
    return str(x) if x.denominator == 1 else f"'{x}'"
