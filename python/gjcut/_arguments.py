"""The arguments of calls, each taken as what it is: a wrong type is an error that names the value,
and none is turned into another that may not be meant."""
import numbers
import operator
import reprlib
from collections.abc import Mapping
from decimal import Decimal
from fractions import Fraction
from typing import Iterable, List, TypeVar, Union

from ._refusals import Place

Number = Union[int, Fraction, Decimal, str]
Item = TypeVar("Item")

NUMBER = "an int, a Fraction, a Decimal, or a text such as '3/5' or '0.25'"
# A text would be taken apart into its characters, and a mapping into its keys; a set has no order.
NO_LISTS = (str, bytes, bytearray, memoryview, Mapping, set, frozenset)


def kind_of(given: object) -> str:
    """The type of a value, with its article."""
    kind = type(given).__name__
    return f"{'an' if kind[0] in 'aeiou' else 'a'} {kind}"


def wrong(given: object, wanted: str, *place) -> TypeError:
    """The error about a value of a wrong type; the place is that of a `Place`."""
    shown = reprlib.repr(given)
    return TypeError(f"{Place(*place)}: {shown} is {kind_of(given)}: write {wanted}")


def number(given: Number, *place) -> Fraction:
    """The fraction that a caller means. A float is refused: it is seldom the number meant. So is a
    bool, which for Python is an int."""
    if type(given) is int:
        return Fraction(given)
    if type(given) is Fraction and type(given.numerator) is type(given.denominator) is int:
        return given
    if isinstance(given, bool) or not isinstance(given, (str, Decimal, numbers.Rational)):
        raise wrong(given, NUMBER, *place)
    try:
        if isinstance(given, numbers.Rational):
            # The whole numbers of other packages can have a greatest one, so none may stay.
            return Fraction(*map(operator.index, (given.numerator, given.denominator)))
        return Fraction(given)
    except (ValueError, OverflowError, ZeroDivisionError):
        raise ValueError(f"{Place(*place)}: {given!r} is no fraction") from None
    except TypeError:
        raise wrong(given, NUMBER, *place) from None


def whole(given: int, *place) -> int:
    """A whole number. A float is refused, also one like 2.0, and so is a bool."""
    try:
        if not isinstance(given, bool):
            return operator.index(given)
    except TypeError:
        pass
    raise wrong(given, "an int", *place)


def written(value: Union[int, Fraction], *place) -> str:
    """A number as texts have it: Python writes no more than some thousand digits."""
    try:
        return str(value)
    except ValueError as error:
        raise ValueError(f"{Place(*place)}: {error}") from None


def word(given: Number, *place) -> str:
    """The number that a caller means, as texts have it."""
    return written(number(given, *place), *place)


def text(given: str, *place, wanted: str = "a str") -> str:
    """A text that has bytes."""
    if not isinstance(given, str):
        raise wrong(given, wanted, *place)
    if not given.isascii():
        try:
            given.encode()
        except UnicodeEncodeError as error:
            raise ValueError(f"{Place(*place)}: {error}") from None
    # The characters themselves: a class over str can print others.
    return str.__str__(given)


def items(given: Iterable[Item], wanted: str, *place) -> List[Item]:
    """The values of a list, a generator or the like, in their order."""
    if isinstance(given, NO_LISTS):
        raise wrong(given, wanted, *place)
    try:
        found = iter(given)
    except TypeError:
        raise wrong(given, wanted, *place) from None
    return list(found)


def fields(given: Iterable[Item], count: int, wanted: str, *place) -> List[Item]:
    """The values of a record that has so many fields."""
    found = items(given, wanted, *place)
    if len(found) != count:
        shown = reprlib.repr(given)
        raise ValueError(f"{Place(*place)}: {shown} has {len(found)} fields: write {wanted}")
    return found
