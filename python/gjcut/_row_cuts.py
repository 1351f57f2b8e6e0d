"""Cuts of rows of the inverse of a basis: multipliers in doubles become steps of derivations."""
import math
from fractions import Fraction
from typing import Counter, Dict, FrozenSet, Iterable, Iterator, List, Mapping, NamedTuple
from typing import Optional, Sequence, Set, Tuple

from ._known import Known
from ._lines import Entries, Line, Missing, Step, floored, fractions_near, is_writable, largest
from ._lines import moved, on_grid, parts_for, to_units, whole_factor
from ._steps import Draft, Found, derived

# A cut is taken if the vertex lies so far beyond it.
LEAST_DISTANCE = 1e-6
# Terms below this part of the greatest are left out, where that costs little.
SMALL = Fraction(1, 2**15)
# Multipliers that are fractions with few digits are taken as they are, over at most such a common
# denominator.
MOST = 10**6
# A row with which a number is too wide is tried again with so many times fewer parts.
FEWER = (1, 2**6, 2**12)


class Way(NamedTuple):
    """How cuts are made: the rule of a step, the parts of a unit for data and multipliers, and for
    cuts, how many are taken, whether there are rows for mixed-integer rounding, and whether data
    are taken as they come."""

    rule: str
    parts: int
    grid: Optional[int]
    limit: int
    has_mir: bool
    has_own_data: bool = False


class Vertex(NamedTuple):
    """The point, and the columns at or near their upper bounds."""

    point: Sequence[float]
    at_upper: Sequence[int]


# Multipliers of lines.
Row = Mapping[str, float]


class Proposed(NamedTuple):
    """How deep a cut is that has no right side yet, and the row that it is of."""

    depth: float
    draft: Draft
    row: Row


class RowCuts:
    """Cuts of rows at a vertex. `refused` counts why rows have none."""

    def __init__(self, known: Known, vertex: Vertex, way: Way):
        self._known, self._vertex, self._way = known, vertex, way
        self.refused: Counter[str] = Counter()

    def deepest(self, rows: Iterable[Row]) -> List[Line]:
        """The deepest cuts of these rows, with numbers of few digits."""
        found: List[Line] = []
        for fewer in FEWER:
            drafts = list(self._drafts(rows, max(1, self._way.parts // fewer)))
            proposed, wide = self._proposed(drafts)
            proposed.sort(key=lambda each: -each.depth)
            chosen = list(self._different(proposed, self._way.limit - len(found)))
            shown = self._shown(each.draft for each in chosen)
            for each in chosen:
                answer = shown[each.draft.name]
                if answer.refused == "wide":
                    wide.append(each.row)
                else:
                    found += self._cut(each.draft, answer)
            rows = wide
            if not rows or len(found) == self._way.limit:
                break
        if rows:
            self.refused["wide"] += len(rows)
        return found

    def _shown(self, drafts: Iterable[Draft]) -> Dict[str, Found]:
        return derived(self._known.program, self._known.lines, drafts, self._known.front)

    def _proposed(self, drafts: Iterable[Tuple[Row, Draft]]) -> Tuple[List[Proposed], List[Row]]:
        """Cuts without right sides, and the rows with which a number is too wide."""
        given = {draft.name: (row, draft) for row, draft in drafts}
        found: List[Proposed] = []
        wide: List[Row] = []
        for name, shown in self._shown(draft for _, draft in given.values()).items():
            row, draft = given[name]
            if shown.refused == "wide":
                wide.append(row)
            elif shown.refused:
                self.refused[shown.refused] += 1
            else:
                found += self._deep(row, draft, shown)
        return found, wide

    def _different(self, proposed: Iterable[Proposed], count: int) -> Iterator[Proposed]:
        """The first of these, so many, without those that nearly are another one."""
        seen: Set[FrozenSet[Tuple[int, float]]] = set()
        for each in proposed:
            entries = each.draft.entries
            greatest = float(largest(entries)) or 1.0
            key = frozenset((j, round(float(x) / greatest, 6)) for j, x in entries.items())
            if key not in seen and len(seen) < count:
                seen.add(key)
                yield each

    def _cut(self, draft: Draft, shown: Found) -> List[Line]:
        """The cut with a right side of few digits, if it is one."""
        if shown.refused:
            self.refused[shown.refused] += 1
            return []
        entries, right = shown.entries, shown.right
        if entries and self._way.grid is not None:
            right = floored(right, parts_for(largest(entries), self._way.grid))
        if self._depth(entries, right) > LEAST_DISTANCE:
            return [Line(draft.name, entries, ">=", right, draft.step)]
        self.refused["shallow"] += 1
        return []

    # ---- to the row

    def _drafts(self, rows: Iterable[Row], parts: int) -> Iterable[Tuple[Row, Draft]]:
        """A draft of each row; by a function also one of its negative, which has another f."""
        for row in rows:
            try:
                step = self._step(row, parts)
            except Missing:
                self.refused["free"] += 1
                continue
            if not is_writable(step.multipliers.values()):
                self.refused["wide"] += 1
                continue
            yield row, Draft(self._known.names.next("cut"), step)
            if self._way.rule != "gmic":
                turned = {name: -value for name, value in step.multipliers.items()}
                name = self._known.names.next("cut")
                yield row, Draft(name, step._replace(multipliers=turned))

    def _step(self, multipliers: Row, parts: int) -> Step:
        """How the cut of a row is made, with multipliers of few digits."""
        known = self._known
        given: Dict[str, float] = {}
        for name, value in multipliers.items():
            line, sign = known.lines[name], 1
            if not self._way.has_own_data:
                line, sign = known.with_few_digits(name, value, parts)
            given[line.name] = sign * value
        chosen = fractions_near(given, MOST) if parts == self._way.parts else None
        if chosen is None:
            chosen = {name: to_units(x, known.unit(name, parts)) for name, x in given.items()}
        chosen = known.without_free(chosen, {})
        columns = {j for name in chosen for j in known.lines[name].entries}
        at_upper = [j for j in self._vertex.at_upper if j in columns]
        return Step(self._way.rule, chosen, at_upper)

    # ---- from the row

    def _deep(self, row: Row, draft: Draft, shown: Found) -> List[Proposed]:
        """The draft with coefficients of few digits, and how deep it is, if it is."""
        entries, grid, factor = shown.entries, self._way.grid, Fraction(1)
        if self._depth(entries, shown.right) <= LEAST_DISTANCE:
            self.refused["shallow"] += 1
            return []
        wanted = entries
        if entries and grid is not None:
            whole = whole_factor(entries)
            if whole * largest(entries) <= grid:
                factor, wanted = whole, {j: whole * value for j, value in entries.items()}
            else:
                wanted = rounded(self._known, entries, grid)
        scaled = {j: factor * value for j, value in entries.items()}
        right = moved(scaled, factor * shown.right, wanted, self._known.program.ranges)
        depth = self._depth(wanted, right)
        if depth <= LEAST_DISTANCE:
            self.refused["shallow"] += 1
            return []
        step = draft.step._replace(factor=factor)
        return [Proposed(depth, Draft(draft.name, step, wanted), row)]

    def _depth(self, entries: Entries, right: Fraction) -> float:
        """How far beyond the cut the vertex lies; one that no point meets is the deepest."""
        if not entries:
            return math.inf if right > 0 else -math.inf
        values = [(float(value), self._vertex.point[j]) for j, value in entries.items()]
        length = math.sqrt(sum(value * value for value, _ in values))
        return (float(right) - sum(value * x for value, x in values)) / length


def rounded(known: Known, entries: Entries, grid: int) -> Entries:
    """The coefficients with few digits, without small ones that matter little."""
    greatest, found = largest(entries), {}
    parts = parts_for(greatest, grid)
    for j, value in entries.items():
        place = known.program.ranges[j]
        has_both = place.lower is not None and place.upper is not None
        length = max(1, place.upper - place.lower) if has_both else None
        if length is None or abs(value) * length >= SMALL * greatest:
            found[j] = on_grid(value, parts, place)
    return found


def in_doubles(known: Known, line: Line) -> Line:
    """The cut, or one that it implies, with numbers that are doubles."""
    if all(Fraction(float(each)) == each for each in (line.right, *line.entries.values())):
        return line
    entries = rounded(known, line.entries, 2**20)
    right = moved(line.entries, line.right, entries, known.program.ranges)
    return line._replace(entries=entries, right=floored(right, parts_for(largest(entries), 2**20)))
