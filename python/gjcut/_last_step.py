"""The last step of a derivation: from multipliers in doubles to a bound of the objective."""
import math
from fractions import Fraction
from typing import Dict, Iterator, List, Mapping, NamedTuple, Optional, Sequence

from ._asked import refused
from ._known import Known
from ._library import call
from ._lines import Entries, Line, Missing, Range, Step, floored, fractions_near, is_writable
from ._lines import largest, moved, parts_for, to_units
from ._steps import derivation, needed_for

# Multipliers are fractions with few digits, over at most such a common denominator, or have so many
# parts of a unit, till no number is too wide; and then lines with few digits are taken.
MOST, PARTS, FEW_PARTS = 10**12, (2**40, 2**30, 2**20), 2**20
# A bound that is no whole number has so many parts of a unit.
BOUND_PARTS = Fraction(10**9)


class Shown(NamedTuple):
    """The last line of a derivation, its text, and how many steps it has."""

    line: Line
    text: str
    steps: int


def shown(
    known: Known,
    costs: Entries,
    duals: Mapping[str, float],
    heading: Sequence[str],
) -> Optional[Shown]:
    """A derivation of the best bound of the costs that these multipliers show, if one is found that
    the program accepts."""
    factor = common_factor(costs, known.program.ranges)
    given = {name: value / float(factor) for name, value in duals.items()}
    wanted = {j: cost / factor for j, cost in costs.items()}
    for multipliers in _tries(known, given):
        chosen = known.without_free(multipliers, wanted)
        if not all(_has_sign(known.lines[name], value) for name, value in chosen.items()):
            continue
        try:
            last = _bound(known, chosen, wanted)
        except Missing:
            continue
        lines = [last]
        if factor != 1:
            step = Step("linear", {last.name: factor})
            lines.append(Line(known.names.new("bound"), costs, ">=", factor * last.right, step))
        found = accepted(known, lines, heading)
        if found is not None:
            return found
    return None


def _tries(known: Known, given: Mapping[str, float]) -> Iterator[Dict[str, Fraction]]:
    """The multipliers as fractions, in each way that is tried."""
    near = fractions_near(given, MOST)
    if near is not None:
        yield near
    lines = known.lines
    for parts in PARTS:
        yield {name: to_units(x, known.unit(name, parts)) for name, x in given.items()}
        # For data of many digits these are fewer, since the costs often have as many.
        greatest = {name: largest(lines[name].entries) or Fraction(1) for name in given}
        units = {name: 1 / parts_for(1 / x, parts) for name, x in greatest.items()}
        yield {name: to_units(x, units[name]) for name, x in given.items()}
    few: Dict[str, float] = {}
    for name, value in given.items():
        line, sign = known.with_few_digits(name, value, FEW_PARTS)
        few[line.name] = sign * value
    for parts in PARTS:
        yield {name: to_units(x, known.unit(name, parts)) for name, x in few.items()}


def _has_sign(line: Line, multiplier: Fraction) -> bool:
    """Whether the line times the multiplier is at least something."""
    return line.sense == "=" or (multiplier < 0) == (line.sense == "<=")


def _bound(known: Known, multipliers: Mapping[str, Fraction], wanted: Entries) -> Line:
    """The step that adds the lines up. What differs from the wanted coefficients goes to the bounds
    of the columns."""
    total: Entries = {}
    right = Fraction(0)
    for name, value in multipliers.items():
        line = known.lines[name]
        right += value * line.right
        for j, entry in line.entries.items():
            total[j] = total.get(j, 0) + value * entry
    ranges = known.program.ranges
    right = moved(total, right, wanted, ranges)
    is_whole = all(ranges[j].is_whole and x.denominator == 1 for j, x in wanted.items())
    right = Fraction(math.ceil(right)) if is_whole else floored(right, BOUND_PARTS)
    return Line(known.names.new("bound"), wanted, ">=", right, Step("linear", multipliers))


def common_factor(costs: Entries, ranges: Sequence[Range]) -> Fraction:
    """The greatest number of which all costs are whole multiples, if all columns with costs are
    whole, and else 1."""
    if not costs or not all(ranges[j].is_whole for j in costs):
        return Fraction(1)
    scale = math.lcm(*(cost.denominator for cost in costs.values()))
    return Fraction(math.gcd(*(int(cost * scale) for cost in costs.values())), scale)


def accepted(known: Known, last: Sequence[Line], heading: Sequence[str]) -> Optional[Shown]:
    """The derivation that ends with these lines, or None if a number is too wide."""
    for each in last:
        numbers = [each.right, *each.entries.values(), *each.step.multipliers.values()]
        if not is_writable(numbers):
            return None
    lines = {**known.lines, **{each.name: each for each in last}}
    steps = [each for each in needed_for(last[-1], lines) if each.step]
    text = known.front + derivation(known.program, known.constraints(), steps, heading)
    answer = call("check", text)
    if answer.status == 0:
        return Shown(last[-1], text, len(steps))
    if answer.status == 1 and answer.text.split()[-1] == "wide":
        return None
    raise refused("check", text, answer)
