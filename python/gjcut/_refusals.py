"""What is refused, and at which of the caller's own values."""
import math
import re
from fractions import Fraction
from typing import Callable, NamedTuple, Optional, Sequence, Tuple

REFUSED = re.compile(r"refused (line|record) (\d+) (\S+)\n")
NAME = re.compile(r"[\x21\x23-\x7e]{1,255}")
# Limits of a tableau, and of what a number is written with.
LARGEST_ENTRY, FINEST_ROW, WIDEST, MOST_ENTRIES = 2**31, 2**31 - 1, 2**127 - 1, 100_000
# The status of words that name no request, and a value of a row or a constraint.
WORDS, RIGHT = 2, "the right side"


class Place(NamedTuple):
    """A value that a caller handed over: the name of the argument, and where in it, from 0 on."""

    argument: str
    index: Optional[int] = None
    column: Optional[str] = None

    def __str__(self) -> str:
        index = "" if self.index is None else f"[{self.index}]"
        return f"{self.argument}{index}" + ("" if self.column is None else f", {self.column}")


class Refused(ValueError):
    """A call without an answer: the program refused the input, or does nothing with this function.

    `status` is that of the program, `reason` its word, and `place` says at which of the caller's
    values, as `points[2]` or `rows[0], 'x1'`; it is None where no single value is at fault. `text`
    is what the program wrote, and `line` the number of the line or record of the text that was
    sent, which a caller of `check` and `by_text` has written. `advice` says what the reason means
    and what to do; it is that of `python3 -m gjcut`.

    >>> import gjcut
    >>> try:
    ...     gjcut.by_breakpoints("1/2", [(0, 0), ("1/2", 1), ("1/2", 0)])
    ... except gjcut.Refused as refused:
    ...     print(refused.status, refused.reason, refused.place, refused.place.index)
    ...     print(refused.advice.partition(";")[0])
    3 break points[2] 2
    a jump is written as two points
    """

    def __init__(
        self,
        status: int,
        text: str,
        place: Optional[Place] = None,
        advice: Optional[str] = None,
    ):
        found = REFUSED.fullmatch(text)
        self.status, self.text, self.place, self.advice = status, text, place, advice
        self.line = int(found[2]) if found else None
        self.reason = found[3] if found else text.strip()
        said = text.strip() or f"status {status}"
        where = f"{place}: {'refused, ' if found else ''}{self.reason}" if place else said
        super().__init__(f"{where}: {advice}" if advice else where)

    def __reduce__(self):
        return Refused, (self.status, self.text, self.place, self.advice)


# Says which value of the caller stands in a `line` or a `record` with a number, for which a reason
# is given.
Places = Callable[[str, int, str], Optional[Place]]
# The name of a basic variable, the right side and the entries.
Row = Tuple[str, Fraction, Sequence[Fraction]]


def no_place(_kind: str, _at: int, _reason: str) -> Optional[Place]:
    return None


def always(argument: str) -> Places:
    return lambda _kind, _at, _reason: Place(argument)


def place_of(text: str, places: Places) -> Optional[Place]:
    """The value at fault, where a line or a record is refused."""
    found = REFUSED.fullmatch(text)
    return places(found[1], int(found[2]), found[3]) if found else None


def places_of_breakpoints(count: int) -> Places:
    """The lines are the header, f, the points and the end."""

    def place(_kind: str, at: int, _reason: str) -> Place:
        if at == 2:
            return Place("f")
        return Place("points", at - 3) if at < count + 3 else Place("points")

    return place


def places_of_values(count: int) -> Places:
    """The lines are the header, the order, f, the points and the end."""

    def place(_kind: str, at: int, _reason: str) -> Place:
        if at == 3:
            return Place("f")
        return Place("values", at - 4) if 3 < at < count + 4 else Place("values")

    return place


def places_of_tableau(columns: Sequence[str], rows: Sequence[Row]) -> Places:
    """The record and the reason are the program's; which field it is, is found here by the same
    tests."""

    def place(kind: str, at: int, reason: str) -> Place:
        if kind == "line":
            return Place("rule")
        if at == 1:
            is_name = reason in ("name", "twice")
            return Place("columns", _name_at_fault(columns, reason) if is_name else None)
        if at - 2 >= len(rows):
            return Place("rows")
        return Place("rows", at - 2, _field_at_fault(columns, rows[at - 2], reason))

    return place


def _name_at_fault(names: Sequence[str], reason: str) -> Optional[int]:
    if reason == "name":
        return next((i for i, name in enumerate(names) if not NAME.fullmatch(name)), None)
    return next((i for i, name in enumerate(names) if name in names[:i]), None)


def _field_at_fault(columns: Sequence[str], row: Row, reason: str) -> Optional[str]:
    basic, right, entries = row
    if reason in ("name", "twice"):
        return f"the name {basic!r}"
    common = 1
    for name, value in zip([RIGHT, *map(repr, columns)], [right, *entries]):
        common = math.lcm(common, value.denominator)
        faults = {
            "number": max(abs(value.numerator), value.denominator) > WIDEST,
            "large": abs(value) > LARGEST_ENTRY,
            "fine": common > FINEST_ROW,
        }
        if faults.get(reason):
            return name
    return f"{len(entries)} entries for {len(columns)} columns" if reason == "fields" else None

