"""Additive faces, and covered intervals."""
from fractions import Fraction
from typing import Dict, List, NamedTuple, Optional, Tuple

from ._functions import Function

Interval = Tuple[Fraction, Fraction]
Place = Tuple[Fraction, Fraction]
# The corners of a face in the square with the lower left corner (a, b), in steps of 1/q.
CORNERS = {
    "vertex": [(0, 0)],
    "horizontal": [(0, 0), (1, 0)],
    "vertical": [(0, 0), (0, 1)],
    "diagonal": [(1, 0), (0, 1)],
    "lower": [(0, 0), (1, 0), (0, 1)],
    "upper": [(1, 0), (0, 1), (1, 1)],
}
# From which sides x, y and x + y come to these corners, from the inside of the face.
WAYS = {
    "vertex": ("000",),
    "horizontal": ("+0+", "-0-"),
    "vertical": ("0++", "0--"),
    "diagonal": ("-+0", "+-0"),
    "lower": ("+++", "-+-", "+--"),
    "upper": ("-++", "+-+", "---"),
}
# The field of a `Point` for each side.
SIDES = {"-": "left", "0": "value", "+": "right"}
# The edges of a face: which two corners are the ends, and which two of the three projections, by x,
# y and x + y, the edge links.
EDGES = {
    "vertex": (),
    "horizontal": (((0, 1), (0, 2)),),
    "vertical": (((0, 1), (1, 2)),),
    "diagonal": (((0, 1), (0, 1)),),
    "lower": (((0, 1), (0, 2)), ((0, 2), (1, 2)), ((1, 2), (0, 1))),
    "upper": (((1, 2), (0, 2)), ((0, 2), (1, 2)), ((0, 1), (0, 1))),
}


class Face(NamedTuple):
    """A face of the square (a, b), whose lower left corner is at (a/order, b/order): a `vertex`, an
    edge (`horizontal`, `vertical` or `diagonal`), or a triangle (`lower` or `upper`)."""

    kind: str
    order: int
    a: int
    b: int

    @property
    def corners(self) -> Tuple[Place, ...]:
        """Its corners, each by x and y."""
        return tuple(
            (Fraction(self.a + x, self.order), Fraction(self.b + y, self.order))
            for x, y in CORNERS[self.kind]
        )


class Cover(NamedTuple):
    """A covered interval, the one to which it is joined, and the face that joins the two. If these
    are the same the face is a triangle that projects on it, and it begins a component. Else it is
    an additive face or, of a function that jumps, a triangle from whose inside the slack tends to 0
    along one edge."""

    interval: Interval
    joined_to: Interval
    face: Face


class Faces(NamedTuple):
    """The maximal additive faces: from the inside of each the slack tends to 0 at all its corners.
    Then the covered intervals, in an order in which each is joined to one before; the uncovered
    ones; and what the program wrote. Intervals go from a multiple of 1/order to the next."""

    order: int
    faces: Tuple[Face, ...]
    covers: Tuple[Cover, ...]
    uncovered: Tuple[Interval, ...]
    text: str

    def __repr__(self) -> str:
        parts = f"{len(self.faces)} faces, {len(self.covers)} covered intervals"
        return f"<{parts}, {len(self.uncovered)} uncovered>"


class Covered(NamedTuple):
    """The components of the covered intervals, and what is uncovered, each as intervals; those that
    touch each other are one."""

    components: Tuple[Tuple[Interval, ...], ...]
    uncovered: Tuple[Interval, ...]


def faces_of(text: str) -> Faces:
    """What a faces text says. There can be two million faces."""
    order, covers, uncovered, at = cover_of(text)
    number = {str(i): i for i in range(order)}
    words = map(str.split, text[:at].splitlines()[2:])
    faces = tuple(Face(kind, order, number[a], number[b]) for kind, a, b in words)
    return Faces(order, faces, covers, uncovered, text)


def cover_of(text: str) -> Tuple[int, Tuple[Cover, ...], Tuple[Interval, ...], int]:
    """The order, what is covered and uncovered, and where the lines of that begin: behind all
    faces."""
    order = int(text.split("\n", 2)[1].split()[1])
    starts = (text.find(mark) for mark in ("\ncover ", "\nuncovered ", "\nend\n"))
    at = min(start for start in starts if start >= 0)

    def interval(i: str) -> Interval:
        return Fraction(int(i), order), Fraction(int(i) + 1, order)

    covers, uncovered = [], []
    for word, i, *rest in map(str.split, text[at + 1 :].splitlines()[:-1]):
        if word == "cover":
            joined_to, kind, a, b = rest
            face = Face(kind, order, int(a), int(b))
            covers.append(Cover(interval(i), interval(joined_to), face))
        else:
            uncovered.append(interval(i))
    return order, tuple(covers), tuple(uncovered), at


def slacks(function: Function, face: Face) -> Tuple[Fraction, ...]:
    """The limits of the slack at the corners of a face, from its inside. A face whose are all 0 is
    additive."""
    return tuple(
        sum(
            sign * getattr(function.limits(place), SIDES[side])
            for sign, place, side in zip((1, 1, -1), (x, y, x + y), way)
        )
        for (x, y), way in zip(face.corners, WAYS[face.kind])
    )


def joining_edge(function: Function, cover: Cover) -> Optional[Tuple[Place, Place]]:
    """The ends of the first edge of the face that links the two intervals and along which the slack
    tends to 0; None if there is none."""
    face, found = cover.face, slacks(function, cover.face)
    shift = face.kind == "upper"
    indices = [i % face.order for i in (face.a, face.b, face.a + face.b + shift)]
    wanted = {int(left * face.order) for left, _ in (cover.interval, cover.joined_to)}
    for ends, linked in EDGES[face.kind]:
        if {indices[i] for i in linked} == wanted and not any(found[i] for i in ends):
            return face.corners[ends[0]], face.corners[ends[1]]
    return None


def covered_of(text: str) -> Covered:
    """The components, each in the order of the line that begins it."""
    _, covers, uncovered, _ = cover_of(text)
    component_of: Dict[Interval, List[Interval]] = {}
    components = []
    for cover in covers:
        if cover.joined_to == cover.interval:
            component_of[cover.interval] = []
            components.append(component_of[cover.interval])
        found = component_of[cover.interval] = component_of[cover.joined_to]
        found.append(cover.interval)
    return Covered(tuple(map(merged, components)), merged(uncovered))


def merged(intervals) -> Tuple[Interval, ...]:
    """The intervals from left to right; those that touch each other as one."""
    found: List[Interval] = []
    for left, right in sorted(intervals):
        if found and found[-1][1] == left:
            found[-1] = (found[-1][0], right)
        else:
            found.append((left, right))
    return tuple(found)
