"""What pictures show of a function and its additive faces, as lines and polygons: plain geometry,
for any program that draws. Each face stands in a faces text, each component in its cover lines.

Corners of polygons, edges and points are in steps of 1/order.
"""
import collections
import re
from fractions import Fraction
from typing import Callable, Dict, Iterable, Iterator, List, NamedTuple, Optional, Tuple

from ._faces import CORNERS, Face, cover_of, joining_edge, slacks
from ._functions import Function

Corner = Tuple[int, int]
Loop = Tuple[Corner, ...]
Segment = Tuple[Corner, Corner]
# From the one multiple of 1/order to the other.
Run = Tuple[int, int]
# A component by its number; None is what is uncovered.
Component = Optional[int]
# The directions of edges by their angles, in parts of 45 degrees.
ANGLES = {(1, 0): 0, (0, 1): 2, (-1, 1): 3, (-1, 0): 4, (0, -1): 6, (1, -1): 7}
TRIANGLES = ("lower", "upper")


class Diagram(NamedTuple):
    """The maximal additive triangles of each component as polygons, the edges that are in none of
    them, the points that are in no edge; and the projections of the triangles by x, y and x + y.

    A polygon is a loop with the triangles on its left; one around a hole goes the other way. An
    additive edge at one border of the square stands at the opposite border too. The limits are the
    edges by which cover lines join intervals only because the slack tends to 0 along them from the
    inside of a triangle, each with that triangle. Only functions that jump have some.
    """

    order: int
    polygons: Dict[Component, Tuple[Loop, ...]]
    edges: Dict[Component, Tuple[Segment, ...]]
    points: Tuple[Corner, ...]
    projections: Tuple[Dict[Component, Tuple[Run, ...]], ...]
    limits: Dict[Component, Tuple[Tuple[Segment, Loop], ...]]


class Piece(NamedTuple):
    """A part of the graph of a function in one component: its corners, from left to right."""

    component: Component
    corners: Tuple[Tuple[Fraction, Fraction], ...]


def components_of(text: str) -> List[Component]:
    """The component of each interval, by the cover lines of a faces text."""
    found: List[Component] = [None] * int(text.split("\n", 2)[1].split()[1])
    covers = (line.split() for line in text.splitlines() if line.startswith("cover "))
    count = 0
    for _, interval, other, *_face in covers:
        if interval == other:
            found[int(interval)], count = count, count + 1
        else:
            found[int(interval)] = found[int(other)]
    return found


def pieces_of(function: Function, component_of: List[Component]) -> List[Piece]:
    """The graph from 0 to 1, in as few pieces as there can be. Without components it is of one."""
    order = len(component_of)
    changes = (i for i in range(1, order) if component_of[i] != component_of[i - 1])
    places = {point.place for point in function.breakpoints}
    places.update(Fraction(i, order) for i in changes)
    ends = [function.limits(place) for place in sorted(places)]
    ends.append(ends[0]._replace(place=Fraction(1)))
    found: List[Tuple[Component, List[Tuple[Fraction, Fraction]]]] = []
    for before, after in zip(ends, ends[1:]):
        component = component_of[int(before.place * order)] if order else None
        is_joined = before.left == before.value == before.right
        if not (found and is_joined and found[-1][0] == component):
            found.append((component, [(before.place, before.right)]))
        found[-1][1].append((after.place, after.left))
    return [Piece(component, tuple(corners)) for component, corners in found]


def slopes_of(pieces: Iterable[Piece]) -> Dict[Component, Fraction]:
    """The slope of each component: that of its first line."""
    found: Dict[Component, Fraction] = {}
    for component, ((left, low), (right, high), *_) in pieces:
        found.setdefault(component, (high - low) / (right - left))
    return found


def diagram_of(text: str, function: Function) -> Diagram:
    """The faces of the faces text of a function, merged."""
    components, jumps = components_of(text), not function.is_continuous
    order = len(components)
    by_kind = {kind: _squares_of(kind, text) for kind in CORNERS}
    rows: Dict[Component, _Rows] = {}
    for kind in TRIANGLES:
        for a, b in by_kind[kind]:
            component = components[a]
            if component not in rows:
                rows[component] = _Rows(order)
            getattr(rows[component], kind)[b] |= 1 << a
    shadows = {component: each.projections() for component, each in rows.items()}

    def is_additive(kind: str, a: int, b: int) -> bool:
        """Whether an edge in the border of an additive triangle is additive itself."""
        return not (jumps and any(slacks(function, Face(kind, order, a, b))))

    return Diagram(
        order,
        {component: tuple(_loops(each.border())) for component, each in rows.items()},
        _edges(by_kind, components, _union(rows.values(), order), is_additive),
        tuple(_with_opposite(by_kind["vertex"], order)),
        tuple({c: tuple(_runs(each[i])) for c, each in shadows.items()} for i in range(3)),
        _limits(text, function, components) if jumps else {},
    )


def _limits(
    text: str, function: Function, components: List[Component]
) -> Dict[Component, Tuple[Tuple[Segment, Loop], ...]]:
    """The edges by which cover lines join intervals from the inside of a triangle that is not
    additive, and the triangles."""
    found: Dict[Component, List[Tuple[Segment, Loop]]] = collections.defaultdict(list)
    order, covers, _, _ = cover_of(text)
    for cover in covers:
        if cover.face.kind in TRIANGLES and any(slacks(function, cover.face)):
            start, end, *loop = (
                (int(x * order), int(y * order))
                for x, y in (*joining_edge(function, cover), *cover.face.corners)
            )
            component = components[int(cover.interval[0] * order)]
            found[component].append(((start, end), tuple(loop)))
    return {component: tuple(sorted(each)) for component, each in found.items()}


def _squares_of(kind: str, text: str) -> List[Corner]:
    """The squares of the faces of this kind."""
    found = re.findall(rf"^{kind} (\d+) (\d+)$", text, re.M)
    return [(int(a), int(b)) for a, b in found]


class _Rows:
    """Triangles: for each b those of the squares (a, b), with all a as bits of a number."""

    def __init__(self, order: int):
        self.order = order
        self.lower, self.upper = [0] * order, [0] * order

    def border(self) -> Iterator[Segment]:
        """Each edge with a triangle on one side alone; that is its left."""
        lower, upper = self.lower, self.upper
        for b, (below, above) in enumerate(zip([0, *upper], [*lower, 0])):
            yield from (((a, b), (a + 1, b)) for a in _bits(above & ~below))
            yield from (((a + 1, b), (a, b)) for a in _bits(below & ~above))
        for b, (low, high) in enumerate(zip(lower, upper)):
            yield from (((a + 1, b), (a, b + 1)) for a in _bits(low & ~high))
            yield from (((a, b + 1), (a + 1, b)) for a in _bits(high & ~low))
            left = high << 1
            yield from (((a, b + 1), (a, b)) for a in _bits(low & ~left))
            yield from (((a, b), (a, b + 1)) for a in _bits(left & ~low))

    def projections(self) -> Tuple[List[int], List[int], List[int]]:
        """The intervals on which they project by x, by y and by x + y."""
        first = total = 0
        for b, (low, high) in enumerate(zip(self.lower, self.upper)):
            first |= low | high
            total |= low << b | high << b + 1
        total |= total >> self.order
        second = [b for b, rows in enumerate(zip(self.lower, self.upper)) if any(rows)]
        return list(_bits(first)), second, list(_bits(total & (1 << self.order) - 1))


def _union(parts: Iterable[_Rows], order: int) -> _Rows:
    found = _Rows(order)
    for part in parts:
        found.lower = [a | b for a, b in zip(found.lower, part.lower)]
        found.upper = [a | b for a, b in zip(found.upper, part.upper)]
    return found


def _bits(number: int) -> Iterator[int]:
    """The places of the bits that are set, from 0 up."""
    digits = bin(number)[:1:-1]
    at = digits.find("1")
    while at >= 0:
        yield at
        at = digits.find("1", at + 1)


def _runs(steps: Iterable[int]) -> Iterator[Run]:
    """Steps, each from i to i + 1, that follow each other as one."""
    first = last = None
    for i in sorted(steps):
        if i != last:
            if first is not None:
                yield first, last
            first = i
        last = i + 1
    if first is not None:
        yield first, last


def _loops(border: Iterator[Segment]) -> Iterator[Loop]:
    """The border as loops. Each turns left as far as it can, so that parts which touch at a corner
    have loops of their own."""
    following: Dict[Corner, List[Corner]] = collections.defaultdict(list)
    for start, end in border:
        following[start].append(end)
    for start in sorted(following):
        while following[start]:
            loop, here = [start], following[start].pop()
            while here != start:
                ends = following[here]
                after = ends.pop(_leftmost(loop[-1], here, ends))
                loop.append(here)
                here = after
            yield _straightened(loop)


def _leftmost(before: Corner, here: Corner, ends: List[Corner]) -> int:
    if len(ends) == 1:
        return 0
    x, y = here
    back = ANGLES[before[0] - x, before[1] - y]
    turns = [(back - ANGLES[u - x, v - y]) % 8 for u, v in ends]
    return turns.index(min(turns))


def _straightened(loop: List[Corner]) -> Loop:
    """The corners at which a loop turns."""
    before, after = [loop[-1], *loop], [*loop[1:], loop[0]]
    return tuple(
        (x, y)
        for (u, v), (x, y), (s, t) in zip(before, loop, after)
        if (x - u, y - v) != (s - x, t - y)
    )


def _edges(
    by_kind: Dict[str, List[Corner]],
    components: List[Component],
    triangles: _Rows,
    is_additive: Callable[[str, int, int], bool],
) -> Dict[Component, Tuple[Segment, ...]]:
    """The edges of each component; those on one line that follow each other as one."""
    lines: Dict[Tuple[Component, str, int], List[int]] = collections.defaultdict(list)
    edges = *_inner_edges(by_kind), *_border_edges(by_kind, triangles, is_additive)
    for direction, line, i in edges:
        lines[components[i], direction, line].append(i)
    found: Dict[Component, List[Segment]] = collections.defaultdict(list)
    for (component, direction, line), steps in lines.items():
        for first, last in _runs(steps):
            found[component].append(_segment(direction, line, first, last))
    return {component: tuple(sorted(each)) for component, each in found.items()}


def _inner_edges(by_kind: Dict[str, List[Corner]]) -> Iterator[Tuple[str, int, int]]:
    """The direction, the line and the step on it, which is an interval that the edge links."""
    yield from (("diagonal", a + b + 1, a) for a, b in by_kind["diagonal"])
    yield from (("horizontal", b, a) for a, b in by_kind["horizontal"] if b)
    yield from (("vertical", a, b) for a, b in by_kind["vertical"] if a)


def _border_edges(
    by_kind: Dict[str, List[Corner]],
    triangles: _Rows,
    is_additive: Callable[[str, int, int], bool],
) -> Iterator[Tuple[str, int, int]]:
    """Those at the borders, each on every side that has no triangle with it."""
    order, low, high = triangles.order, triangles.lower, triangles.upper
    at_horizontals = low[0], high[-1], {a for a, b in by_kind["horizontal"] if not b}
    columns = _column(low, 0), _column(high, order - 1)
    at_verticals = *columns, {b for a, b in by_kind["vertical"] if not a}
    for direction, at in (("horizontal", at_horizontals), ("vertical", at_verticals)):
        for i in range(order):
            is_below, is_above, is_alone = at[0] >> i & 1, at[1] >> i & 1, i in at[2]
            square = (i, 0) if direction == "horizontal" else (0, i)
            is_edge = (is_below != is_above) and is_additive(direction, *square)
            if is_edge or is_alone:
                yield from () if is_below else ((direction, 0, i),)
                yield from () if is_above else ((direction, order, i),)


def _column(rows: List[int], a: int) -> int:
    """The triangles of the squares (a, b), with all b as bits."""
    return sum((row >> a & 1) << b for b, row in enumerate(rows))


def _segment(direction: str, line: int, first: int, last: int) -> Segment:
    if direction == "horizontal":
        return (first, line), (last, line)
    if direction == "vertical":
        return (line, first), (line, last)
    return (first, line - first), (last, line - last)


def _with_opposite(points: Iterable[Corner], order: int) -> Iterator[Corner]:
    """The points; one at a border with that at the opposite border."""
    for a, b in points:
        yield from ((x, y) for x in {a, a or order} for y in {b, b or order})
