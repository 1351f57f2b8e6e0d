"""Functions made of functions, beside `fill`, `times`, `mirror` and `restrict` of the package."""
import math
from fractions import Fraction
from typing import Iterable, List, Tuple

import gjcut

from ._arguments import Number, items, number, whole
from ._functions import Function, Point, function as a_function


def average(*functions: Function) -> Function:
    """The sum of functions with one f, divided by their number. The average of different minimal
    functions is minimal, and not extreme.

    >>> import gjcut
    >>> first, second = gjcut.literature.gmic("1/2"), gjcut.literature.gj_2_slope("1/2", "1/2")
    >>> gjcut.extreme(average(first, second)).claim
    'not-extreme'
    """
    given = [a_function(each, f"functions[{i}]") for i, each in enumerate(functions)]
    if not given:
        raise ValueError("functions: there is none, so there is no average")
    total = given[0]
    for each in given[1:]:
        total = total + each
    return total / len(given)


def automorphism(function: Function, factor: int = -1) -> Function:
    """The function of x times the factor. For -1 that is `mirror`, which keeps what is minimal and
    what is extreme. For another factor, without a common divisor with the order n, it is the
    automorphism of the cyclic group: the values at the multiples of 1/n change places, and the
    function is affine between them. That keeps whether the table is extreme (`group`), and not
    whether the function is.

    >>> import gjcut
    >>> five = gjcut.literature.gmic("2/5")
    >>> turned = automorphism(five, 3)
    >>> turned.f, gjcut.extreme(turned).claim
    (Fraction(4, 5), 'not-extreme')
    """
    a_function(function)
    factor, order = whole(factor, "factor"), function.order
    if factor == 1:
        return function
    if factor == -1:
        return gjcut.mirror(function)
    if math.gcd(factor, order) != 1:
        raise ValueError(f"factor: {factor} and the order {order} have a common divisor above 1")
    _continuous(function)
    place = function.f.numerator * (order // function.f.denominator)
    values = [function.at(Fraction(factor * i, order)) for i in range(order)]
    return gjcut.by_values(Fraction(pow(factor, -1, order) * place % order, order), values)


def _continuous(function: Function) -> None:
    if not function.is_continuous:
        raise ValueError("function: it jumps, and a table has no limits")


def multiplicative_homomorphism(function: Function, multiplier: int) -> Function:
    """The function of x times the multiplier, with f divided by it. It is minimal exactly if the
    function is.

    >>> import gjcut
    >>> multiplicative_homomorphism(gjcut.literature.gmic("1/2"), -2).f
    Fraction(3, 4)
    """
    multiplier = whole(multiplier, "multiplier")
    if multiplier == 0:
        raise ValueError("multiplier: it is 0, and gives no function")
    made = gjcut.times(function, abs(multiplier))
    return made if multiplier > 0 else gjcut.mirror(made)


def interpolate(f: Number, values: Iterable[Number]) -> Function:
    """The continuous function that has these values at the multiples of 1/n, n their number, and is
    affine between them. If the table is minimal, so is the function. If the table is extreme, the
    function need not be.

    >>> import gjcut
    >>> seven = interpolate("6/7", [0, "2/5", "4/5", "1/2", "1/5", "3/5", 1])
    >>> gjcut.group(seven).claim, gjcut.extreme(seven).claim
    ('extreme', 'not-extreme')
    """
    given = items(values, "a list of values", "values")
    return gjcut.by_values(f, [number(value, "values", i) for i, value in enumerate(given)])


def two_slope_approximation(function: Function, order: int) -> Function:
    """The symmetric two-slope fill-in of the values at the multiples of 1/order: a function with
    two slopes that has these values. Nearer to 0 than to f it goes up by the greatest slope between
    them, and then down by the least one; nearer to f it is symmetric, so first down. Multiples of
    1/order must be f/2 and (1 + f)/2.

    A minimal function with two slopes is extreme (Gomory and Johnson 1972). Whether this one is
    minimal, ask `minimal`: where the values have many equations of sums it need not be. In this way
    Basu, Hildebrand and Molinaro (Minimal cut-generating functions are nearly extreme, IPCO 2016)
    approximate each continuous minimal function.

    >>> import gjcut
    >>> seven = gjcut.literature.extreme_at_order_7()
    >>> near = two_slope_approximation(seven, 14)
    >>> gjcut.extreme(seven).claim, gjcut.extreme(near).claim
    ('not-extreme', 'extreme')
    """
    a_function(function)
    order, f = whole(order, "order"), function.f
    if order < 1 or (f * order) % 2 or order % 2:
        raise ValueError(f"order: f/2 or (1 + f)/2 is no multiple of 1/{order}, with f = {f}")
    _continuous(function)
    values = [function.at(Fraction(i, order)) for i in range(order + 1)]
    rises = [after - before for before, after in zip(values, values[1:])]
    up, down = max(rises), -min(rises)
    places: List[Tuple[Fraction, Fraction]] = []
    for i, rise in enumerate(rises):
        middle = Fraction(2 * i + 1, 2 * order)
        is_near_f = f / 2 < middle < (1 + f) / 2
        # The part of the interval that goes up; there it goes up last, elsewhere first.
        part = (rise + down) / (up + down) if up + down else Fraction(0)
        places.append((Fraction(i, order), values[i]))
        if 0 < part < 1:
            turn = 1 - part if is_near_f else part
            value = values[i] - down * turn if is_near_f else values[i] + up * turn
            places.append(((i + turn) / order, value))
    return Function(f=f, points=[Point(x, value, value, value) for x, value in places])
