"""What a family of functions is: a formula, who found it, and the range of its parameters in which
a verdict is known."""
import functools
import inspect
from fractions import Fraction
from math import ceil
from typing import Any, Callable, Dict, List, Mapping, NamedTuple, Sequence, Tuple, Union

import gjcut

from ._arguments import Number, items, number, text, whole, wrong
from ._functions import Function
from ._refusals import Place, Refused

Points = List[Tuple[Fraction, ...]]
# A condition is an expression over the parameters, so that what is told is what is tested. Or it is
# words, and the test that they tell.
Condition = Union[str, Tuple[str, Callable[..., bool]]]
NAMES = {"__builtins__": {}, "ceil": ceil}
NOT_SETTLED = "Not settled:"


class OutOfRange(ValueError):
    """With these parameters the verdict of the family is not known; the text says which condition
    fails."""


class Family(NamedTuple):
    """A family of the literature.

    `make` is the call, which takes the parameters and has an example as its defaults. `known` is
    the verdict that is known in the range: `extreme`, `not-extreme`, `minimal` or `not-minimal`.
    The `range` has the conditions, all of which must hold. `unsettled` says what of formula, range
    and source is not certain, and is empty if nothing is.
    """

    name: str
    make: Callable[..., Function]
    source: str
    known: str
    range: Tuple[str, ...]
    formula: str
    unsettled: str = ""


# Each family by its name, in the order of the page.
FAMILIES: Dict[str, Family] = {}


def family(*conditions: Condition, source: str, known: str = "extreme", unsettled: str = ""):
    """Makes a family of a call from exact numbers to f and breakpoints."""
    told = tuple(each if isinstance(each, str) else each[0] for each in conditions)
    range_ = f"{known.replace('-', ' ').capitalize()} if {_joined(told)}." if told else ""

    def decorated(build: Callable[..., Tuple[Fraction, Points]]) -> Callable[..., Function]:
        name, signature = build.__name__, inspect.signature(build)
        parameters = signature.parameters

        @functools.wraps(build)
        def make(*given: Any, check_range: bool = True, **named: Any) -> Function:
            if not isinstance(check_range, bool):
                raise wrong(check_range, "True or False", "check_range")
            bound = signature.bind(*given, **named)
            bound.apply_defaults()
            values = {
                key: _taken(value, parameters[key].annotation, key)
                for key, value in bound.arguments.items()
            }
            failing = check_range and _first_that_fails(conditions, values)
            if failing:
                raise OutOfRange(
                    f"{name} is known to be {known.replace('-', ' ')} if {_joined(told)}; here it "
                    f"is not so that {failing}: with check_range=False it is made all the same"
                )
            try:
                f, points = build(**values)
            except ZeroDivisionError:
                raise ValueError(f"{name}: its formula divides by 0 for these parameters") from None
            return _made(name, f, points)

        asked = inspect.Parameter(
            "check_range", inspect.Parameter.KEYWORD_ONLY, default=True, annotation=bool
        )
        make.__signature__ = signature.replace(
            parameters=[*parameters.values(), asked], return_annotation=Function
        )
        formula = inspect.getdoc(build) or ""
        doubt = f"{NOT_SETTLED} {unsettled}" if unsettled else ""
        make.__doc__ = "\n\n".join(filter(None, [formula, range_, f"Source: {source}.", doubt]))
        FAMILIES[name] = Family(name, make, source, known, told, formula, unsettled)
        return make

    return decorated


def _joined(conditions: Sequence[str]) -> str:
    *front, last = conditions
    return f"{', '.join(front)} and {last}" if front else last


def _taken(value: Any, annotation: Any, name: str) -> Any:
    if annotation is str:
        return text(value, name)
    if annotation is int:
        return whole(value, name)
    if annotation is Number:
        return number(value, name)
    given = items(value, "a list of numbers", name)
    return tuple(number(each, name, i) for i, each in enumerate(given))


def _first_that_fails(conditions: Sequence[Condition], values: Mapping[str, Any]) -> str:
    for each in conditions:
        if isinstance(each, str):
            holds = eval(each, {**NAMES, **values})  # an expression of this package
        else:
            holds = each[1](**values)
        if not holds:
            return each if isinstance(each, str) else each[0]
    return ""


def _made(name: str, f: Fraction, points: Points) -> Function:
    """The function; pieces of length 0 are left out."""
    kept: Points = []
    for point in points:
        if point[0] != 1 and not (kept and point == kept[-1]):
            kept.append(point)
    try:
        return gjcut.by_breakpoints(f, kept)
    except Refused as refused:
        place = refused.place and Place(f"the breakpoints of {name}", refused.place.index)
        raise Refused(refused.status, refused.text, place, refused.advice) from None


def by_slopes(lengths: Sequence[Fraction], slopes: Sequence[Fraction]) -> Points:
    """The breakpoints of a continuous function that is 0 at 0, by its pieces from left to right."""
    x = y = Fraction(0)
    points = [(x, y)]
    for length, slope in zip(lengths, slopes):
        x, y = x + length, y + length * slope
        points.append((x, y))
    return points


def symmetric(f: Fraction, front: Points) -> Points:
    """The breakpoints from 0 to f, by those in the first half: x and f - x have the sum 1."""
    return [*front, *((f - x, 1 - value) for x, value in reversed(front))]
