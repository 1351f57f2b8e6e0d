"""Functions of the literature that jump. A point is a place, the limit from the left, the value,
and the limit from the right."""
from fractions import Fraction
from math import ceil

from ._arguments import Number
from ._continuous_families import DRLM, TWO_STEP
from ._family import family

STRONG = (
    "Letchford and Lodi, Strengthening Chvátal-Gomory cuts and Gomory fractional cuts (Operations "
    "Research Letters 30, 2002); for the range, the compendium"
)
PROVED_BY = "source: who proved first that it is extreme. The range is the compendium's."
LIFTED = (
    "Richard, Li and Miller, Valid inequalities for MIPs and group polyhedra from approximate "
    "liftings (Mathematical Programming 118, 2009)"
)
HILDEBRAND = "Hildebrand (unpublished; in cutgeneratingfunctionology)"
FRACTIONAL = (
    "Gomory, Outline of an algorithm for integer solutions to linear programs (Bulletin of the "
    "American Mathematical Society 64, 1958)"
)
OWN = "our own; the family `half` of function texts"
ZERO, ONE = Fraction(0), Fraction(1)


@family("0 < f < 1", "2 * f >= 1", source=STRONG, unsettled=PROVED_BY)
def ll_strong_fractional(f: Number = "2/3"):
    """The strong fractional cut. Let k be the least whole number that is not below 1/f - 1. The
    function is x/f from 0 to f. The rest of the period has k equal pieces, open on the left, and
    the last one on the right too. On the p-th of them the function is (x - p/(k + 1))/f. For f <
    1/2 it is not minimal."""
    k = ceil(1 / f - 1)

    def piece(p, x):
        return (x - Fraction(p, k + 1)) / f

    points = [(ZERO, piece(k, ONE), ZERO, ZERO), (f, ONE, ONE, piece(1, f))]
    for p in range(1, k):
        x = f + (1 - f) * p / k
        points.append((x, piece(p, x), piece(p, x), piece(p + 1, x)))
    return f, points


@family("0 < f < 1", "d >= ceil(1 / (1 - f)) - 1", source=TWO_STEP)
def dg_2_step_mir_limit(f: Number = "3/5", d: int = 3):
    """What dg_2_step_mir tends to for alpha below f/d and towards it. It falls by the slope
    -1/(1 - f), and jumps up by 1/((d + 1)(1 - f)) at i f/d for i from 0 to d. The value there is
    i/d."""
    jump = 1 / ((d + 1) * (1 - f))
    points = [(ZERO, ZERO, ZERO, jump)]
    for i in range(1, d + 1):
        x = f * i / d
        low = i * jump - x / (1 - f)
        points.append((x, low, Fraction(i, d), low + jump))
    return f, points


@family(
    "0 < f < 1", "1 <= nb_pieces_left", "1 <= nb_pieces_right",
    "nb_pieces_left * (1 - f) <= nb_pieces_right * f", source=DRLM,
)  # fmt: skip
def drlm_2_slope_limit(
    f: Number = "3/5", nb_pieces_left: int = 3, nb_pieces_right: int = 4
):  # fmt: skip
    """A limit of functions with two slopes. From 0 to f there are m = nb_pieces_left pieces of one
    length, and from f to 1 there are n = nb_pieces_right. Let d = 1/(1 + n f - m (1 - f)). All
    pieces have the slope (m + n) d, and at the end of each the function falls by d. The value is
    i/m at the end of the i-th piece on the left, and 1 - i/n at that of the i-th on the right."""
    m, n = nb_pieces_left, nb_pieces_right
    whole = 1 + n * f - m * (1 - f)
    if whole <= 0:
        raise ValueError("nb_pieces_left: with so many pieces the function would not rise")
    ends = [(f * i / m, Fraction(i, m)) for i in range(1, m + 1)]
    ends += [(f + (1 - f) * i / n, 1 - Fraction(i, n)) for i in range(1, n)]
    points = [(ZERO, 1 / whole, ZERO, ZERO)]
    for i, (x, value) in enumerate(ends):
        rise = (m + n) * x
        points.append((x, (rise - i) / whole, value, (rise - i - 1) / whole))
    return f, points


@family(
    "0 < f", "3 * f < 1", source=DRLM,
    unsettled="range: whether the source has 3 * f = 1 in it. The program calls that member "
    "extreme.",
)  # fmt: skip
def drlm_3_slope_limit(f: Number = "1/5"):
    """What drlm_backward_3_slope tends to for b towards f: x/f from 0 to f, x/(1 + f) between f and
    1, and 0 at 1."""
    return f, [(ZERO, 1 / (1 + f), ZERO, ZERO), (f, ONE, ONE, f / (1 + f))]


@family("0 < f", "3 * f < 1", source=LIFTED)
def rlm_dpl1_extreme_3a(f: Number = "1/4"):
    """x/f from 0 to f, 2x/(1 + 2f) between f and (1 + f)/2, (2x - 1)/(1 + 2f) between there and 1,
    1/2 at (1 + f)/2, and 0 at 1."""
    slope, fall, middle = 2 / (1 + 2 * f), 1 / (1 + 2 * f), (1 + f) / 2
    return f, [
        (ZERO, slope - fall, ZERO, ZERO),
        (f, ONE, ONE, slope * f),
        (middle, slope * middle, Fraction(1, 2), slope * middle - fall),
    ]


@family(
    source=HILDEBRAND,
    unsettled="values: which of 1/4 and 3/4 is the value at 1/8, and at 5/8. Here it is 3/4, and "
    "so 1/4 at 3/8 and at 7/8. The program calls all four functions extreme.",
)
def hildebrand_2_sided_discont_1_slope_1():
    """One function, with f = 1/2 and the slope 2 on each piece. It jumps from both sides at 0: the
    limits at 0 are 1/2."""
    half, low, high = Fraction(1, 2), Fraction(1, 4), Fraction(3, 4)
    limits = [(half, half), (high, high, low), (half,), (high, low, low)]
    points = [(Fraction(i, 8), *limits[i % 4]) for i in range(1, 8) if i != 4]
    return half, sorted([*points, (ZERO, half, ZERO, half), (half, half, ONE, half)])


@family("0 < f < 1", source=OWN, known="not-extreme")
def half(f: Number = "1/2"):
    """0 at 0, 1 at f, and 1/2 everywhere else. No interval is covered, so it is not extreme."""
    middle = Fraction(1, 2)
    return f, [(ZERO, middle, ZERO, middle), (f, middle, ONE, middle)]


@family("0 < f < 1", source=FRACTIONAL, known="not-minimal")
def gomory_fractional(f: Number = "3/5"):
    """The fractional cut: x/f from 0 to below 1. Its cut holds, and that of gmic is stronger."""
    return f, [(ZERO, 1 / f, ZERO, ZERO)]
