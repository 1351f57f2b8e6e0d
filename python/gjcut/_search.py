"""All extreme functions of an order."""
import json
import math
import re
import time
from concurrent.futures import Executor
from fractions import Fraction
from pathlib import Path
from typing import Dict, Iterable, Iterator, List, NamedTuple, Optional, Sequence, Set, Tuple, Union

from . import _files, _progress
from ._arguments import Number, number, text as text_of, whole
from ._asked import done
from ._functions import Function, line
from ._map import answered, checked, in_parts
from ._vertices import extreme_tables, program_for

# The entries as they are printed: to compare these costs less than to compare fractions.
Table = Tuple[str, ...]
FRACTION = re.compile(r"\d+(/\d+)?")
FORM = "gjcut search 1"
# So many tables are decided by one task, and so many seconds lie between two writings of the file.
PART, PAUSE = 100, 5.0


class TableClass(NamedTuple):
    """Extreme tables that automorphisms of the cyclic group make of one another.

    `tables` are functions that are affine between the entries of a table. Those of them that are
    extreme functions are `extreme`.
    """

    f: Fraction
    tables: Tuple[Function, ...]
    extreme: Tuple[Function, ...]


def search(
    order: int,
    f: Optional[Number] = None,
    *,
    executor: Optional[Executor] = None,
    file: Union[str, Path, None] = None,
    program: Optional[str] = None,
    progress: Optional[bool] = None,
) -> Tuple[TableClass, ...]:
    """All extreme functions that are continuous and affine between the multiples of 1/order, with
    this f, a multiple of 1/order, or with each.

    The table of such a function is extreme. The extreme tables are the vertices of the polytope of
    minimal tables, and `program` lists them: "lrs" or "ppl", or None for one that is here. Up to
    automorphisms of the cyclic group that keep f these are few. Whether the function of a table is
    extreme, the library decides of each, since of two tables of a class the one can have an extreme
    function and the other not.

    Tasks go to the executor, as for `gjcut.map`; without one this process does the work. A `file`
    keeps what is done, and a search that was interrupted goes on from it. What stands in it is
    taken as it is.

    >>> import gjcut
    >>> [(len(each.tables), len(each.extreme)) for each in gjcut.search(8, "1/2")]
    [(2, 2), (2, 1)]
    """
    order, progress = whole(order, "order"), _progress.asked(progress)
    if not 2 <= order <= 1000:
        raise ValueError(f"order: {order} is not from 2 to 1,000")
    places = range(1, order) if f is None else [_place(order, number(f, "f"))]
    if program is not None:
        text_of(program, "program")
    checked(executor)
    state = _State(order, None if file is None else Path(file))
    found: List[TableClass] = []
    try:
        for root in sorted({math.gcd(place, order) for place in places}):
            if root not in state.tables:
                listed = extreme_tables(order, root, program_for(program), progress)
                state.tables[root] = [tuple(map(str, each)) for each in listed]
                state.save()
        for place in places:
            found += _classes(order, place, state, executor, progress)
    finally:
        state.save()
    return tuple(found)


def _place(order: int, f: Fraction) -> int:
    place = f * order
    if place.denominator != 1 or not 0 < f < 1:
        raise ValueError(f"f: {f} is no multiple of 1/{order} between 0 and 1")
    return int(place)


class _State:
    """What is done: the tables with f = g/order for each divisor g, and for each place k whether
    the function is extreme, of so many tables from the first on."""

    def __init__(self, order: int, file: Optional[Path]):
        self.order, self.file = order, file
        self.tables: Dict[int, List[Table]] = {}
        self.claims: Dict[int, str] = {}
        self.saved = ""
        if file is not None and file.exists():
            self._read(file.read_text(encoding="utf-8", errors="replace"))

    def _read(self, text: str) -> None:
        try:
            kept = json.loads(text)
            form, order = kept["form"], kept["order"]
            tables = {
                int(root): [tuple(each.split()) for each in listed]
                for root, listed in kept["tables"].items()
            }
            claims = {int(place): str(each) for place, each in kept["extreme"].items()}
        except (ValueError, KeyError, TypeError, AttributeError):
            form, order, tables, claims = "", 0, {}, {}
        every = {each for listed in tables.values() for each in listed}
        is_whole = all(map(FRACTION.fullmatch, {word for each in every for word in each}))
        is_whole = is_whole and {len(each) for each in every} <= {order}
        if form != FORM or not is_whole or set("".join(claims.values())) - {"0", "1"}:
            raise ValueError(f"{self.file}: it is no file of a search, and is left as it is")
        if order != self.order:
            raise ValueError(f"{self.file}: it is of a search of order {order}, not {self.order}")
        self.tables, self.claims, self.saved = tables, claims, text

    def save(self) -> None:
        """Writes the file anew, whole, if there is one and anything is new."""
        if self.file is None:
            return
        kept = {
            "form": FORM,
            "order": self.order,
            "tables": {
                str(root): [" ".join(each) for each in listed]
                for root, listed in self.tables.items()
            },
            "extreme": {str(place): each for place, each in self.claims.items()},
        }
        text = json.dumps(kept, indent=0) + "\n"
        if text != self.saved:
            _files.write(self.file, text.encode(), force=True)
            self.saved = text


def _classes(
    order: int,
    place: int,
    state: _State,
    executor: Optional[Executor],
    progress: Optional[bool],
) -> Iterator[TableClass]:
    root = math.gcd(place, order)
    units = [u for u in range(1, order) if math.gcd(u, order) == 1]
    # The automorphism that takes the place `root` to this one, and those that keep this one.
    turn = next(u for u in units if u * root % order == place)
    back = pow(turn, -1, order)
    keeping = [u for u in units if u * place % order == place]
    tables = [_moved(each, back) for each in state.tables[root]]
    texts = [_text(order, place, each) for each in tables]
    _decide(place, texts, state, executor, progress)
    number_of = {table: i for i, table in enumerate(tables)}
    done_with: Set[int] = set()
    for number, table in enumerate(tables):
        if number in done_with:
            continue
        members = sorted({number_of[_moved(table, u)] for u in keeping})
        done_with.update(members)
        functions = {i: Function(texts[i]) for i in members}
        extreme = (each for i, each in functions.items() if state.claims[place][i] == "1")
        yield TableClass(Fraction(place, order), tuple(functions.values()), tuple(extreme))


def _moved(table: Table, unit: int) -> Table:
    order = len(table)
    return tuple([table[unit * i % order] for i in range(order)])


def _text(order: int, place: int, table: Table) -> str:
    front = "gj-function 1\n" + line("order", order) + line("f", Fraction(place, order))
    return front + "".join(line("point", value) for value in table) + "end\n"


def _decide(
    place: int,
    texts: Sequence[str],
    state: _State,
    executor: Optional[Executor],
    progress: Optional[bool],
) -> None:
    known = state.claims.setdefault(place, "")
    if len(known) > len(texts):
        raise ValueError(f"{state.file}: it has more verdicts than tables")
    parts = ((part,) for part in in_parts(texts[len(known) :], PART))
    answers: Iterable[str]
    if executor is None:
        answers = (each for part in parts for each in _are_extreme(*part))
    else:
        answers = answered(executor, _are_extreme, parts)
    what = f"functions with f = {Fraction(place, state.order)}"
    new, last = [], time.monotonic()
    try:
        for each in _progress.shown(answers, what, len(texts) - len(known), progress):
            new.append(each)
            if time.monotonic() - last > PAUSE:
                state.claims[place] = known + "".join(new)
                state.save()
                last = time.monotonic()
    finally:
        state.claims[place] = known + "".join(new)


def _are_extreme(texts: Sequence[str]) -> List[str]:
    """1 for each function that is extreme, and 0 for each other; all of them must be minimal."""
    found = []
    for text in texts:
        claim = done("extreme", text).split("\n", 2)[1]
        if claim not in ("claim extreme", "claim not-extreme"):
            raise RuntimeError(f"a vertex is no minimal table: {text}")
        found.append("1" if claim == "claim extreme" else "0")
    return found
