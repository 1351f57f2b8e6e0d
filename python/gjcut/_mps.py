"""Models written as free MPS, with numbers in all their digits."""
import itertools
from decimal import Decimal, localcontext
from fractions import Fraction
from typing import Dict, Iterable, Iterator, List, Optional, Sequence, Tuple

from ._lines import Entries, Line
from ._steps import Names

MOST_DIGITS = 400
SENSES = {"<=": "L", ">=": "G", "=": "E"}
# A column: its name, whether it is whole, and its bounds.
Column = Tuple[str, bool, Optional[Fraction], Optional[Fraction]]


def text(
    name: str,
    columns: Sequence[Column],
    costs: Entries,
    constant: Fraction,
    lines: Iterable[Line],
    comment: str,
) -> str:
    """A minimum. Its names have no blanks. The fields stand where fixed MPS has them too, and the
    word FREE is for readers that would count columns. The constant is the cost of a column at 1:
    programs differ about its sign elsewhere."""
    lines, columns, costs = list(lines), list(columns), dict(costs)
    if constant:
        names = Names()
        for column in columns:
            names.new(column[0])
        costs[len(columns)] = constant
        columns.append((names.new("constant"), False, Fraction(1), Fraction(1)))
    taken = Names()
    rows = [taken.new(line.name) for line in lines]
    first = taken.new("objective")
    by_column: Dict[int, List[str]] = {j: [] for j in range(len(columns))}
    for row, entries in [(first, costs), *zip(rows, (line.entries for line in lines))]:
        for j, value in entries.items():
            by_column[j].append(_fields("", columns[j][0], row, _number(value)))
    parts = [f"* {comment}\n" if comment else "", f"NAME          {name or 'model'}  FREE\n"]
    parts += ["ROWS\n", f" N  {first}\n"]
    parts += (f" {SENSES[line.sense]}  {row}\n" for row, line in zip(rows, lines))
    parts += ["COLUMNS\n", *_with_markers(columns, by_column, first), "RHS\n"]
    rights = zip(rows, (line.right for line in lines))
    parts += (_fields("", "RHS", row, _number(right)) for row, right in rights if right)
    parts.append("BOUNDS\n")
    for column in columns:
        parts += _bounds(*column)
    return "".join([*parts, "ENDATA\n"])


def _fields(first: str, *others: str) -> str:
    return " " + "  ".join([f"{first:2}" , *(f"{each:8}" for each in others)]).rstrip() + "\n"


def decimal_of(value: Fraction) -> Optional[Decimal]:
    """The same number as a decimal, if it is one."""
    with localcontext() as context:
        context.prec = MOST_DIGITS
        found = (Decimal(value.numerator) / Decimal(value.denominator)).normalize()
        return found if Fraction(found) == value else None


def _number(value: Fraction) -> str:
    found = decimal_of(value)
    return repr(float(value)) if found is None else str(found)


def _with_markers(
    columns: Sequence[Column], by_column: Dict[int, List[str]], first: str
) -> Iterator[str]:
    """The lines of the columns, of which each has one, with marks around whole ones."""
    for is_whole, group in itertools.groupby(range(len(columns)), lambda j: columns[j][1]):
        if is_whole:
            yield _fields("", "MARKER", "'MARKER'", "", "", "'INTORG'")
        for j in group:
            yield from by_column[j] or [_fields("", columns[j][0], first, "0")]
        if is_whole:
            yield _fields("", "MARKER", "'MARKER'", "", "", "'INTEND'")


def _bounds(
    name: str, is_whole: bool, lower: Optional[Fraction], upper: Optional[Fraction]
) -> Iterator[str]:
    """All that is not so without a line. Programs differ about whole columns without one."""
    if lower is None:
        yield _fields("FR" if upper is None else "MI", "BND", name)
    elif lower == upper:
        yield _fields("FX", "BND", name, _number(lower))
        return
    elif lower != 0 or is_whole:
        yield _fields("LO", "BND", name, _number(lower))
    if upper is not None:
        yield _fields("UP", "BND", name, _number(upper))
    elif is_whole and lower is not None:
        yield _fields("PL", "BND", name)
