"""Cuts of mixed-integer programs, in their own columns."""
import functools
import itertools
import math
import numbers
from collections import abc
from fractions import Fraction
from typing import Callable, Container, Dict, Iterable, Iterator, List, Mapping, NamedTuple
from typing import Optional, Sequence, Union

from ._arguments import Number, fields, items, number, text as text_of, whole, word, written, wrong
from ._asked import refused
from ._functions import Rule, line, printed, text_of_rule
from ._library import Answer, call
from ._lines import exponent
from ._problem_sentences import WORDS
from ._refusals import NAME, REFUSED, RIGHT, WIDEST, Place

# Floats are taken to so many bits, the first of these with which no number is too wide; a caller
# may say this many at most. No float is taken to multiples of less than one over 2 to the finest.
BITS, MOST_BITS, FINEST = (40, 30, 20), 64, 100
# All numbers on the way to a cut are multiples of one over this, if the caller says nothing else,
# and he may say this at most.
ROUND, MOST_ROUND = 2**20, 2**31 - 1
GMIC = ("gj-problem 1\n", "rule gmic\n")
WHOLE, CONTINUOUS, SENSES = "whole", "continuous", ("<=", ">=", "=")
# The bounds of a column, as a refusal names them.
SIDES = ("the lower bound", "the upper bound")
# What belongs in the place of a value of another type.
A_NAME, NAMES, NUMBERS = "a name, which is a str", "a list of names", "a list of numbers"
SUMS = "a list of lists of numbers, one for each sum"
A_KIND = f"True or {WHOLE!r}, or False or {CONTINUOUS!r}"
A_SENSE, ENTRIES = "'<=', '>=' or '='", "a dict with the numbers by the names of columns"
# A text has at most so many bytes, and all its sums take at most so many steps: one for each
# column, constraint and entry. Sums that do not fit go into another text.
MOST_BYTES, MOST_STEPS = 16_777_216, 10**9


class Column(NamedTuple):
    """A variable: its name, whether it is a whole number at each point, and its bounds; None is no
    bound. `is_whole` is a bool, or one of the words "whole" and "continuous"."""

    name: str
    is_whole: Union[bool, str]
    lower: Optional[Number]
    upper: Optional[Number]


class Constraint(NamedTuple):
    """The sum of the entries, each times its column, is at most ("<="), at least (">=") or equal to
    ("=") the right side. The entries stand by the names of their columns."""

    name: str
    entries: Mapping[str, Number]
    sense: str
    right: Number


class SafeCut(NamedTuple):
    """At each feasible point of the problem the sum of the entries, each times its column, is at
    least `right`; or `skipped` says why there is no cut. `text` is what the library wrote."""

    entries: Dict[str, Fraction]
    right: Optional[Fraction]
    skipped: Optional[str]
    text: str


Multiplier = Union[Number, float]


class Given(NamedTuple):
    """What a caller hands over, but for the multipliers."""

    front: Sequence[str]
    columns: Sequence[Column]
    constraints: Sequence[Constraint]
    at_upper: Sequence[str]
    grid: Optional[int]
    round: Optional[int]


def safe_cut(
    columns: Iterable[Column],
    constraints: Iterable[Constraint],
    multipliers: Iterable[Multiplier],
    rule: Rule = "gmic",
    at_upper: Iterable[str] = (),
    grid: Optional[int] = None,
    round: Optional[int] = ROUND,
    bits: Optional[int] = None,
) -> SafeCut:
    """The cut of a mixed-integer program that the rule gives of the sum of its constraints, each
    times its multiplier.

    Each feasible point of the problem meets the cut, whatever the multipliers are: whole numbers in
    whole columns, any in the others. `at_upper` names the columns that are turned by their upper
    bounds. With `grid` the numbers of the cut are rounded to multiples of 1/grid, so that it holds
    still. A tuple of the same fields serves as a `Column` or a `Constraint`. A value of another
    type raises `TypeError`, which says where it stands.

    Multipliers alone may be floats. These are taken to `bits` bits of the greatest entry that the
    multipliers make, each times the entries of its constraint: a float goes to the nearest multiple
    of the greatest power of 2 that times the greatest entry of its constraint is at most 1/2**bits
    of that. So constraints with large numbers get fine multipliers, and no entry of a constraint
    moves by more than 1/2**(bits + 1) of the greatest. `bits` is an int from 1 to 64, or None: then
    it is 40, and 30 or 20 if a number of the computation is too wide.

    Data, and the entries of the row, are taken over `round`, each in the direction in which the cut
    holds: so no number grows long, and the cut is weaker by some 1/round. It is None or an int from
    1 to 2**31 - 1. With None the cut is exact: take that for short numbers, and for a function
    whose f the sum has only with the exact data.

    `skipped` is "integral" (the right side of the sum is whole, and there is no cut), "other" (its
    fractional part is not the f of the function), "free NAME" (this column has no bound, and cannot
    be left out, or its entry is off the grid of `round`), "wide" (a number has more than 127 bits),
    or None. A function that is not minimal, or jumps, raises `Refused`.

    >>> x, y = Column("x", True, 0, None), Column("y", True, 0, None)
    >>> z = Column("z", False, 0, None)
    >>> first = Constraint("first", {"x": 2, "y": 1}, "<=", 7)
    >>> second = Constraint("second", {"x": 1, "y": 3, "z": -1}, "<=", 9)
    >>> cut = safe_cut([x, y, z], [first, second], ["3/5", "-1/5"], round=None)
    >>> [f"{value} {name}" for name, value in cut.entries.items()], str(cut.right)
    (['-5/3 x', '-5/3 y', '5/6 z'], '-20/3')
    >>> cut = safe_cut([x, y, z], [first, second], [0.6, -0.2], grid=2**20)
    >>> [f"{float(value):.3f} {name}" for name, value in cut.entries.items()]
    ['-1.667 x', '-1.667 y', '0.833 z']
    """
    given, ways = _given(columns, constraints, rule, at_upper, grid, round), bits_of(bits)
    taken = items(multipliers, NUMBERS, "multipliers")
    return _cuts(given, [taken], lambda _, j: Place("multipliers", j), ways)[0]


def safe_cuts(
    columns: Iterable[Column],
    constraints: Iterable[Constraint],
    multipliers: Iterable[Iterable[Multiplier]],
    rule: Rule = "gmic",
    at_upper: Iterable[str] = (),
    grid: Optional[int] = None,
    round: Optional[int] = ROUND,
    bits: Optional[int] = None,
) -> List[SafeCut]:
    """The cuts of many sums of one mixed-integer program, as a round of cuts needs them: of each
    list of multipliers the cut that `safe_cut` makes, in their order.

    The program is written and read once for all of them, which takes most of the time of a cut.

    >>> x, y = Column("x", True, 0, None), Column("y", True, 0, None)
    >>> z = Column("z", False, 0, None)
    >>> first = Constraint("first", {"x": 2, "y": 1}, "<=", 7)
    >>> second = Constraint("second", {"x": 1, "y": 3, "z": -1}, "<=", 9)
    >>> sums = [["3/5", "-1/5"], ["-1/5", "2/5"]]
    >>> for cut in safe_cuts([x, y, z], [first, second], sums, round=None):
    ...     print([f"{value} {name}" for name, value in cut.entries.items()], cut.right)
    ['-5/3 x', '-5/3 y', '5/6 z'] -20/3
    ['-5/2 x', '-25/4 y', '5/2 z'] -75/4
    """
    given, ways = _given(columns, constraints, rule, at_upper, grid, round), bits_of(bits)
    lists = enumerate(items(multipliers, SUMS, "multipliers"))
    taken = [items(each, NUMBERS, "multipliers", i) for i, each in lists]
    return _cuts(given, taken, lambda i, j: Place("multipliers", i, _nth(j)), ways)


def _nth(j: Optional[int]) -> Optional[str]:
    """A multiplier of a sum, as a refusal names it."""
    return None if j is None else f"multiplier {j}"


def _given(
    columns: Iterable[Column],
    constraints: Iterable[Constraint],
    rule: Rule,
    at_upper: Iterable[str],
    grid: Optional[int],
    round: Optional[int],
) -> Given:
    return Given(
        _front(rule),
        columns_of(columns),
        constraints_of(constraints),
        names_of(at_upper, "at_upper"),
        None if grid is None else whole(grid, "grid"),
        round_of(round),
    )


# The place of a multiplier: the number of its sum, and its own there or None.
Where = Callable[[int, Optional[int]], Place]


class _Sum(NamedTuple):
    """A sum that is asked for: its number, and its multipliers as fractions."""

    number: int
    multipliers: Sequence[Fraction]


def _cuts(
    given: Given, sums: Sequence[Sequence[Multiplier]], where: Where, ways: Sequence[int]
) -> List[SafeCut]:
    """The cuts of the sums. Those with floats are asked for in each way until none is too wide."""
    front, found = "".join(_lines(given)), [SafeCut({}, None, "wide", "")] * len(sums)
    with_floats = any(map(_is_float, itertools.chain(*sums)))
    sizes = [size_of(each.entries) for each in given.constraints] if with_floats else []
    tried = [
        rounded(each, sizes, functools.partial(where, i), ways) for i, each in enumerate(sums)
    ]
    left: List[int] = list(range(len(sums)))
    while left:
        next_ways = ((i, next(tried[i], None)) for i in left)
        asked = [_Sum(i, values) for i, values in next_ways if values is not None]
        for each, cut in zip(asked, _answers(front, given, asked, where)):
            found[each.number] = cut
        left = [each.number for each in asked if found[each.number].skipped == "wide"]
    return found


def round_of(given: Optional[int]) -> Optional[int]:
    """What all numbers are taken over, or None."""
    return None if given is None else _up_to(given, MOST_ROUND, "round")


def bits_of(given: Optional[int]) -> Sequence[int]:
    """To how many bits floats are taken, in each way that is tried."""
    return BITS if given is None else (_up_to(given, MOST_BITS, "bits"),)


def _up_to(given: int, most: int, argument: str) -> int:
    """A whole number from 1 to the most, of an argument that can be None."""
    try:
        found = whole(given, argument)
    except TypeError:
        raise wrong(given, f"an int from 1 to {most}, or None", argument) from None
    if not 1 <= found <= most:
        shown = written(found, argument)
        raise ValueError(f"{argument}: {shown} is not from 1 to {most}: write such an int, or None")
    return found


def _front(rule: Rule) -> Sequence[str]:
    """The first lines: those of a function, or the line of the rule."""
    text = text_of_rule(rule)
    return GMIC if text is None else [*text.splitlines(keepends=True), GMIC[0]]


def columns_of(given: Iterable[Column]) -> List[Column]:
    return [Column(*each) for each in _records(given, Column, "columns")]


def constraints_of(given: Iterable[Constraint]) -> List[Constraint]:
    return [Constraint(*each) for each in _records(given, Constraint, "constraints")]


def names_of(given: Iterable[str], *place) -> List[str]:
    """Names whose order says nothing, so that a set serves too."""
    return list(given) if isinstance(given, abc.Set) else items(given, NAMES, *place)


def _records(given: Iterable, kind: type, argument: str) -> Iterator[List]:
    """The fields of each column, or of each constraint."""
    wanted = f"{kind.__name__}({', '.join(kind._fields)})"
    for i, each in enumerate(items(given, f"a list of {wanted}", argument)):
        yield fields(each, len(kind._fields), wanted, argument, i)


def column_line(i: int, column: Column) -> str:
    given_name, is_whole, *bounds = column
    name = name_of(given_name, "columns", i)
    words = [name, _kind(is_whole, "columns", i, f"is_whole of {name!r}")]
    for side, bound in zip(SIDES, bounds):
        words.append("-" if bound is None else word(bound, "columns", i, side))
    return line("column", *words)


def constraint_lines(i: int, constraint: Constraint, known: Container[str]) -> Iterator[str]:
    """The line of a constraint, and those of its entries; the names of columns that are known need
    no test."""
    name, entries, sense, right = constraint
    words = [name_of(name, "constraints", i), _sense(sense, "constraints", i)]
    yield line("constraint", *words, word(right, "constraints", i, RIGHT))
    if not isinstance(entries, abc.Mapping):
        raise wrong(entries, ENTRIES, "constraints", i, "the entries")
    for column, value in entries.items():
        if type(column) is not str or column not in known:
            column = name_of(column, "constraints", i, repr(column))
        if type(value) is not int or abs(value) > WIDEST:
            value = word(value, "constraints", i, repr(column))
        yield f"entry {column} {value}\n"


def column_place(i: int, column: Column) -> Place:
    """The value at fault in the line of a column, where its number is."""
    wide = (side for side, x in zip(SIDES, column[2:]) if x is not None and is_wide(x))
    return Place("columns", i, next(wide, None))


def constraint_places(i: int, constraint: Constraint) -> Iterator[Place]:
    """The value in each line of a constraint."""
    yield Place("constraints", i, RIGHT if is_wide(constraint.right) else None)
    yield from (Place("constraints", i, repr(column)) for column in constraint.entries)


def _lines(given: Given) -> Iterator[str]:
    """The lines of the problem, up to the sum."""
    yield from given.front
    yield from (column_line(i, each) for i, each in enumerate(given.columns))
    known = {column.name for column in given.columns}
    for i, constraint in enumerate(given.constraints):
        yield from constraint_lines(i, constraint, known)
    if given.round is not None:
        yield line("round", str(given.round))
    if given.grid is not None:
        yield line("grid", written(given.grid, "grid"))
    for i, name in enumerate(given.at_upper):
        yield line("upper", name_of(name, "at_upper", i))


def _places(given: Given) -> Iterator[Place]:
    """The value in each of these lines."""
    yield from (Place("rule") for _ in given.front)
    yield from (column_place(i, each) for i, each in enumerate(given.columns))
    for i, constraint in enumerate(given.constraints):
        yield from constraint_places(i, constraint)
    if given.round is not None:
        yield Place("round")
    if given.grid is not None:
        yield Place("grid")
    yield from (Place("at_upper", i) for i, _ in enumerate(given.at_upper))


def name_of(given: str, *place) -> str:
    name = text_of(given, *place, wanted=A_NAME)
    if not NAME.fullmatch(name):
        how = "write 1 to 255 visible ASCII characters, without a blank or a double quote"
        raise ValueError(f"{Place(*place)}: the name {name!r} cannot stand in a problem: {how}")
    return name


def _kind(given: Union[bool, str], *place) -> str:
    """The word for a column. Nothing else is taken for true or false: a continuous column that is
    taken for a whole one gives a cut that removes feasible points."""
    if isinstance(given, bool):
        return WHOLE if given else CONTINUOUS
    if isinstance(given, str) and given in (WHOLE, CONTINUOUS):
        return text_of(given, *place)
    raise wrong(given, A_KIND, *place)


def _sense(given: str, *place) -> str:
    if not isinstance(given, str):
        raise wrong(given, A_SENSE, *place, "the sense")
    if given not in SENSES:
        which = f"{Place(*place)}: the sense {given!r}"
        raise ValueError(f"{which} is none of \"<=\", \">=\" and \"=\"")
    return text_of(given, *place)


def rounded(
    multipliers: Sequence[Multiplier],
    sizes: Sequence[Fraction],
    place_of: Callable[[int], Sequence],
    ways: Sequence[int] = BITS,
) -> Iterator[List[Fraction]]:
    """The multipliers as fractions, in each way that is tried; without a float there is one. The
    sizes are those of their constraints, if there is a float, the place is that of the multiplier
    with this number, in the words of a `Place`, and the ways say how many bits are kept."""
    floats = [_is_float(given) for given in multipliers]
    values = [_value(given, j, place_of) for j, given in enumerate(multipliers)]
    all_sizes = [*sizes[: len(values)], *[Fraction(1)] * (len(values) - len(sizes))]
    sized = [abs(x) * size for x, size in zip(values, all_sizes) if x] if any(floats) else []
    greatest = max(sized, default=0)
    for bits in ways if greatest else (0,):
        taken = [
            _nearest(x, size, greatest, bits) if is_float and x else x
            for x, size, is_float in zip(values, all_sizes, floats)
        ]
        # What has more bits cannot be written.
        if not any(is_float and is_wide(x) for x, is_float in zip(taken, floats)):
            yield taken


def size_of(entries: Mapping[str, Number]) -> Fraction:
    """The greatest entry of a constraint in absolute value; 1 if all are 0."""
    values = [x if type(x) is int else number(x) for x in entries.values()]
    try:
        # A quotient is rounded to the nearest double, so the greatest number has the greatest.
        doubles = [abs(x.numerator) / x.denominator for x in values]
        most = max(doubles, default=0.0)
        values = [x for x, double in zip(values, doubles) if double == most]
    except OverflowError:
        pass
    return Fraction(max(map(abs, values), default=0) or 1)


def _nearest(value: Fraction, size: Fraction, greatest: Fraction, bits: int) -> Fraction:
    """The multiplier of a constraint whose greatest entry is the size, to so many bits of the
    greatest entry that the multipliers make."""
    parts = Fraction(2) ** min(exponent(size / greatest * 2**bits), FINEST)
    return round(value * parts) / parts


def _is_float(given: Multiplier) -> bool:
    if type(given) in (int, float, Fraction):
        return type(given) is float
    return isinstance(given, numbers.Real) and not isinstance(given, numbers.Rational)


def _value(given: Multiplier, j: int, place_of: Callable[[int], Sequence]) -> Fraction:
    if type(given) is int:
        return Fraction(given)
    if not _is_float(given):
        return number(given, *place_of(j))
    if math.isfinite(given):
        return Fraction(float(given))
    raise ValueError(f"{Place(*place_of(j))}: {given!r} is no number: leave this sum out")


def _answers(
    front: str, given: Given, asked: Sequence[_Sum], where: Where
) -> Iterator[SafeCut]:
    """The cuts of these sums, by as few texts as they fit into."""
    lines = [_sum_line(each, where) for each in asked]
    steps = len(given.columns) + len(given.constraints)
    steps += sum(len(constraint.entries) for constraint in given.constraints)
    room = MOST_BYTES - len(front) - len("end\n")
    start = 0
    while start < len(asked):
        end, used = start, 0
        while end < len(asked) and (end == start or used + len(lines[end]) <= room):
            if end > start and (end - start + 1) * steps > MOST_STEPS:
                break
            used, end = used + len(lines[end]), end + 1
        yield from _asked(front, given, asked[start:end], "".join(lines[start:end]), where)
        start = end


def _sum_line(each: _Sum, where: Where) -> str:
    try:
        return line("sum", *each.multipliers)
    except ValueError:
        # Python writes no more than some thousand digits: the multiplier that has more is named.
        for j, value in enumerate(each.multipliers):
            written(value, *where(each.number, j))
        raise


def _asked(
    front: str, given: Given, sums: Sequence[_Sum], lines: str, where: Where
) -> Iterator[SafeCut]:
    """The cuts of sums by one text."""
    text = f"{front}{lines}end\n"
    status, said = call(WORDS, text)
    if status:
        raise refused(WORDS, text, Answer(status, said), _place(given, sums, said, where))
    yield from _read(said)


def _place(given: Given, sums: Sequence[_Sum], said: str, where: Where) -> Optional[Place]:
    """The value in the line that is refused: the sums stand in the last lines but one."""
    found = REFUSED.fullmatch(said)
    if not found:
        return None
    places = itertools.chain(_places(given), (_place_of_sum(each, where) for each in sums))
    return next(itertools.islice(places, int(found[2]) - 1, None), None)


def _place_of_sum(each: _Sum, where: Where) -> Place:
    wide = (j for j, value in enumerate(each.multipliers) if is_wide(value))
    return where(each.number, next(wide, None))


def is_wide(given: Number) -> bool:
    value = number(given)
    return max(abs(value.numerator), value.denominator) > WIDEST


def _read(said: str) -> Iterator[SafeCut]:
    """The cuts of an answer, each with the text that an answer with it alone is."""
    lines = said.splitlines(keepends=True)
    starts = [i for i, each in enumerate(lines) if each.startswith(("cut ", "skip "))]
    for start, end in zip(starts, [*starts[1:], len(lines) - 1]):
        own = lines[start:end]
        yield _read_one(own, "".join([*lines[: starts[0]], *own, lines[-1]]))


def _read_one(lines: Sequence[str], text: str) -> SafeCut:
    kind, value = lines[0].rstrip("\n").split(" ", 1)
    if kind == "skip":
        return SafeCut({}, None, value, text)
    terms = (each.split() for each in lines[1:])
    return SafeCut({name: printed(x) for _, name, x in terms}, printed(value), None, text)
