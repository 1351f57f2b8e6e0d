"""What is known of a model: its constraints, and the lines that were made of them."""
from fractions import Fraction
from typing import Dict, List, Mapping, Optional, Sequence, Tuple

from ._lines import Entries, Line, Range, balanced, is_small, is_writable, relaxed
from ._lines import unit
from ._steps import Names, Program


class Known:
    """The lines by their names, each after those that it is made of. `own` are the constraints, and
    `front` is the text of the function of steps, if there is one."""

    def __init__(self, names: Sequence[str], ranges: Sequence[Range]):
        columns = Names()
        self.program = Program([columns.new(name) for name in names], ranges)
        self.lines: Dict[str, Line] = {}
        self.own: List[str] = []
        self.front = ""
        self.names = Names()
        self._free = [j for j, (_, *bounds) in enumerate(ranges) if bounds == [None, None]]
        # Lines with few digits in place of others, by name, sign and parts.
        self._relaxed: Dict[Tuple[str, int, int], str] = {}
        # What is asked of lines again and again, by name and parts.
        self._units: Dict[Tuple[str, int], Fraction] = {}
        self._small: Dict[Tuple[str, int], bool] = {}

    def add_constraint(
        self, wanted: str, entries: Entries, sense: str, right: Optional[Fraction]
    ) -> Optional[str]:
        """Its name. A side that is not there has none, and neither has a constraint that no text
        can have, as one with 1e-40: without it there are more feasible points."""
        if right is None or not is_writable([right, *entries.values()]):
            return None
        name = self.names.new(wanted)
        self.lines[name] = Line(name, entries, sense, right)
        self.own.append(name)
        return name

    def constraints(self) -> List[Line]:
        return [self.lines[name] for name in self.own]

    def unit(self, name: str, parts: int) -> Fraction:
        """That of the multipliers of the line."""
        if (name, parts) not in self._units:
            self._units[name, parts] = unit(self.lines[name], parts)
        return self._units[name, parts]

    def with_few_digits(self, name: str, multiplier: float, parts: int) -> Tuple[Line, int]:
        """The line, or in its place one with fewer digits, which is at least something, and the
        sign by which it was multiplied for that."""
        line = self.lines[name]
        if (name, parts) not in self._small:
            self._small[name, parts] = is_small(line, parts)
        if self._small[name, parts]:
            return line, 1
        sign = -1 if line.sense == "<=" or (line.sense == "=" and multiplier < 0) else 1
        key = name, sign, parts
        if key not in self._relaxed:
            new = self.names.new(f"{name}.{'relaxed' if sign == 1 else 'turned'}")
            self.lines[new] = relaxed(line, sign, new, self.program.ranges, parts)
            self._relaxed[key] = new
        return self.lines[self._relaxed[key]], sign

    def without_free(
        self, multipliers: Mapping[str, Fraction], wanted: Mapping[int, Fraction]
    ) -> Dict[str, Fraction]:
        """Multipliers near these, without zeros, in whose sum columns without a bound have the
        wanted coefficients, if there are some."""
        found = dict(multipliers)
        if self._free:
            found = balanced(found, self.lines, self._free, wanted)
        return {name: value for name, value in found.items() if value}
