"""Rows for mixed-integer rounding, after Marchand and Wolsey (2001): sums of few constraints, in
which variable bounds take the place of continuous columns, divided by a coefficient. Which are
tried is a heuristic in doubles."""
from typing import Dict, FrozenSet, Iterator, List, Mapping, NamedTuple, Optional, Sequence, Set
from typing import Tuple

from ._known import Known

# So many constraints are added up at most, and so many coefficients of a sum are tried.
MOST_ADDED, MOST_TRIED = 4, 6
# What is nearer than this to a whole number, or to a bound, is there.
NEAR = 1e-6


class Sum(NamedTuple):
    """Multipliers of constraints, and the coefficients of the sum."""

    multipliers: Dict[str, float]
    entries: Dict[int, float]

    def plus(self, name: str, entries: Mapping[int, float], column: int) -> "Sum":
        """With the multiple of a constraint that leaves no coefficient of the column."""
        multiplier = -self.entries[column] / entries[column]
        multipliers, total = dict(self.multipliers), dict(self.entries)
        multipliers[name] = multipliers.get(name, 0.0) + multiplier
        for j, value in entries.items():
            total[j] = total.get(j, 0.0) + multiplier * value
        del total[column]
        return Sum(multipliers, total)


class MixedRounding:
    """Rows of the constraints that hold with equality at a point."""

    def __init__(self, known: Known, tight: Sequence[str], point: Sequence[float]):
        self._known, self._point = known, point
        self._entries = {
            name: {j: float(value) for j, value in known.lines[name].entries.items()}
            for name in tight
        }
        # For continuous columns: the constraint that bounds it by a whole one, and the others.
        self._bounds: Dict[int, str] = {}
        self._others: Dict[int, List[str]] = {}
        for name, entries in self._entries.items():
            continuous = [j for j in entries if not known.program.ranges[j].is_whole]
            if len(entries) == 2 and len(continuous) == 1:
                self._bounds[continuous[0]] = name
            else:
                for j in continuous:
                    self._others.setdefault(j, []).append(name)

    def rows(self) -> Iterator[Dict[str, float]]:
        """Multipliers of constraints, each once."""
        seen: Set[FrozenSet[Tuple[str, float]]] = set()
        for row in self._all():
            key = frozenset((name, float(f"{value:.9g}")) for name, value in row.items())
            if key not in seen:
                seen.add(key)
                yield row

    def _all(self) -> Iterator[Dict[str, float]]:
        bounds = set(self._bounds.values())
        for name, entries in self._entries.items():
            found: Optional[Sum] = Sum({name: 1.0}, entries)
            for _ in range(MOST_ADDED if name not in bounds else 0):
                yield from self._divided(self._bounded(found))
                found = self._with_another(found)
                if found is None:
                    break

    def _bounded(self, given: Sum) -> Sum:
        """Variable bounds in the place of the columns that have one, and stand between bounds."""
        for j in [j for j in given.entries if j in self._bounds and self._is_between(j)]:
            if given.entries.get(j):
                name = self._bounds[j]
                given = given.plus(name, self._entries[name], j)
        return given

    def _with_another(self, given: Sum) -> Optional[Sum]:
        """The sum without a continuous column for which it has no variable bound."""
        for j, value in given.entries.items():
            if value and j in self._others and j not in self._bounds and self._is_between(j):
                for name in self._others[j]:
                    if name not in given.multipliers:
                        return given.plus(name, self._entries[name], j)
        return None

    def _divided(self, given: Sum) -> Iterator[Dict[str, float]]:
        """Divided by coefficients of whole columns that are not whole at the point."""
        ranges, found = self._known.program.ranges, set()
        for j, value in given.entries.items():
            x = self._point[j]
            if value and ranges[j].is_whole and abs(x - round(x)) > NEAR:
                found.add(abs(value))
        for divisor in sorted(found, reverse=True)[:MOST_TRIED]:
            yield {name: value / divisor for name, value in given.multipliers.items() if value}

    def _is_between(self, column: int) -> bool:
        _, lower, upper = self._known.program.ranges[column]
        x = self._point[column]
        is_above = lower is None or x - float(lower) > NEAR
        return is_above and (upper is None or float(upper) - x > NEAR)
