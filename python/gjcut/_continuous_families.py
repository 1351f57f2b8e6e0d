"""Continuous functions of the literature. The names are those of cutgeneratingfunctionology, the
compendium of Köppe and his students, where it has the family; so are the names of parameters."""
from fractions import Fraction
from math import ceil, floor
from typing import List, Sequence

import gjcut

from ._arguments import Number
from ._family import Points, by_slopes, family, symmetric

GOMORY = (
    "Gomory, An algorithm for the mixed integer problem (RAND, 1960); Gomory and Johnson, Some "
    "continuous functions related to corner polyhedra (Mathematical Programming 3, 1972)"
)
T_SPACE = "Gomory and Johnson, T-space and cutting planes (Mathematical Programming 96, 2003)"
DRLM = (
    "Dey, Richard, Li and Miller, On the extreme inequalities of infinite group problems "
    "(Mathematical Programming 121, 2010)"
)
TWO_STEP = (
    "Dash and Günlük, Valid inequalities based on simple mixed-integer sets (Mathematical "
    "Programming 105, 2006)"
)
N_STEP = (
    "Kianfar and Fathi, Generalized mixed integer rounding inequalities: facets for infinite group "
    "polyhedra (Mathematical Programming 120, 2009)"
)
COUNTEREXAMPLE = (
    "Basu, Conforti, Cornuéjols and Zambelli, A counterexample to a conjecture of Gomory and "
    "Johnson (Mathematical Programming 133, 2012)"
)
MANY_SLOPES = (
    "Basu, Conforti, Di Summa and Paat, Extreme functions with an arbitrary number of slopes "
    "(IPCO 2016)"
)
LIFTINGS = (
    "Miller, Li and Richard, New inequalities for finite and infinite group problems from "
    "approximate lifting (Naval Research Logistics 55, 2008)"
)
K_CUTS = (
    "Cornuéjols, Li and Vandenbussche, K-cuts: a variation of Gomory mixed integer cuts from the "
    "LP tableau (INFORMS Journal on Computing 15, 2003); that it is extreme: the two-slope theorem "
    "of Gomory and Johnson (1972)"
)
CYCLIC = (
    "Gomory, Some polyhedra related to combinatorial problems (Linear Algebra and its Applications "
    "2, 1969), for the facet; of such functions: " + DRLM
)
SEARCH = "Köppe and Zhou, by computer search (in cutgeneratingfunctionology)"
COMPENDIUM = "formula, range: they are those of the compendium, as we remember it."


@family("0 < f < 1", source=GOMORY)
def gmic(f: Number = "4/5"):
    """The mixed-integer cut: x/f from 0 to f, and (1 - x)/(1 - f) from there to 1."""
    return f, [(Fraction(0), Fraction(0)), (f, Fraction(1))]


@family("0 < f < 1", "0 < lambda_1 <= 1", "lambda_1 < f / (1 - f)", source=T_SPACE)
def gj_2_slope(f: Number = "3/5", lambda_1: Number = "1/6"):
    """Two slopes, with l for lambda_1. The breakpoints are 0, (f - l(1 - f))/2, (f + l(1 - f))/2
    and f, with the values 0, (1 + l)/2, (1 - l)/2 and 1."""
    peak = (f - lambda_1 * (1 - f)) / 2, (1 + lambda_1) / 2
    return f, symmetric(f, [(Fraction(0), Fraction(0)), peak])


@family(
    "0 < f < 1",
    "0 <= 2 * lambda_1 <= 1",
    "0 <= lambda_2 <= 1",
    "0 < lambda_1 * f + lambda_2 * (f - 1)",
    source=T_SPACE,
)
def gj_forward_3_slope(f: Number = "4/5", lambda_1: Number = "4/9", lambda_2: Number = "2/3"):
    """Three slopes, with l1 and l2 for the lambdas. Let a' = l1 f/2 and a = a' - l2 (1 - f)/2. The
    breakpoints are 0, a, a', f - a', f - a and f, with the values 0, (l1 + l2)/2, l1/2, 1 - l1/2,
    1 - (l1 + l2)/2 and 1."""
    second = lambda_1 * f / 2
    first = second - lambda_2 * (1 - f) / 2
    front = [(first, (lambda_1 + lambda_2) / 2), (second, lambda_1 / 2)]
    return f, symmetric(f, [(Fraction(0), Fraction(0)), *front])


@family(
    "0 < f < bkpt", "4 * bkpt < 1 + f", source=DRLM,
    unsettled="range: whether the source has 4 * bkpt = 1 + f in it. The program calls members "
    "there extreme.",
)  # fmt: skip
def drlm_backward_3_slope(f: Number = "1/12", bkpt: Number = "2/12"):
    """Three slopes. The breakpoints are 0, f, b and 1 + f - b, with b for bkpt, and the values
    there are 0, 1, b/(1 + f) and 1 - b/(1 + f)."""
    value = bkpt / (1 + f)
    back = [(bkpt, value), (1 + f - bkpt, 1 - value)]
    return f, [(Fraction(0), Fraction(0)), (f, Fraction(1)), *back]


@family("0 < alpha < f < 1", "f / alpha < ceil(f / alpha) <= 1 / alpha", source=TWO_STEP)
def dg_2_step_mir(f: Number = "4/5", alpha: Number = "3/10"):
    """Two-step mixed-integer rounding. Let t be the least whole number that is not below f/alpha,
    and r = f - alpha floor(f/alpha). There are 2t pieces, of the lengths r and alpha - r in turn;
    only the last has the length 1 - f. They have the slopes (1 - r t)/(r t (1 - f)) and -1/(1 - f)
    in turn. It is kf_n_step_mir with a = (1, alpha)."""
    return f, _n_steps(f, [Fraction(1), alpha])


def _rests(f: Fraction, a: Sequence[Fraction]) -> List[Fraction]:
    rests = [f]
    for step in a[1:]:
        rests.append(rests[-1] - step * floor(rests[-1] / step))
    return rests


def _n_steps(f: Fraction, a: Sequence[Fraction]) -> Points:
    rests = _rests(f, a)
    if min(rests) <= 0:
        raise ZeroDivisionError("a rising piece has no length")
    lengths = [rests[-1], a[-1] - rests[-1]]
    for i in range(len(a) - 2, -1, -1):
        # Each rise of the length rests[i] becomes so many shorter ones.
        lengths = lengths * ceil(rests[i] / a[i + 1])
        lengths[-1] = a[i] - rests[i]
    down = 1 / (f - 1)
    up = -down * sum(lengths[1::2]) / sum(lengths[0::2])
    return by_slopes(lengths, [up, down] * (len(lengths) // 2))


def _steps_fit(f: Fraction, a: Sequence[Fraction]) -> bool:
    rests = _rests(f, a)
    pairs = zip(rests, a, a[1:])
    return all(rest > 0 for rest in rests) and all(
        ceil(rest / after) <= before / after for rest, before, after in pairs
    )


@family(
    "0 < f < 1",
    ("a[0] = 1 and all of a are above 0", lambda f, a: a[:1] == (1,) and min(a) > 0),
    ("a[1] < f", lambda f, a: len(a) > 1 and a[1] < f),
    ("each b[i] is above 0, and ceil(b[i - 1]/a[i]) <= a[i - 1]/a[i]", _steps_fit),
    source=N_STEP,
)
def kf_n_step_mir(f: Number = "4/5", a: Sequence[Number] = (1, "3/10", "2/25")):
    """Mixed-integer rounding in n steps. Let b[0] = f and b[i] = b[i - 1] - a[i] floor(b[i - 1] /
    a[i]). Begin with the mixed-integer cut. In step i each rising piece, of the length b[i - 1],
    becomes ceil(b[i - 1]/a[i]) rising pieces of the length b[i], and between two of them a falling
    one of the length a[i] - b[i]. All falling pieces have the slope -1/(1 - f), and all rising ones
    one slope."""
    return f, _n_steps(f, a)


@family(
    "0 < f < 1",
    ("e[0] <= 1 - f", lambda f, e: bool(e) and e[0] <= 1 - f),
    ("e[0] >= e[1] >= .. > 0", lambda f, e: e[-1] > 0 and sorted(e, reverse=True) == list(e)),
    ("e[0] + 2 e[1] + 4 e[2] + .. < f", lambda f, e: _lost(e) < f),
    source=COUNTEREXAMPLE,
)
def psi_n_in_bccz_counterexample_construction(
    f: Number = "2/3", e: Sequence[Number] = ("1/12", "1/24")
):
    """Begin with the mixed-integer cut. In step i each rising piece becomes two of one length, with
    a falling piece of the length e[i] between them. All falling pieces have the slope -1/(1 - f),
    and all rising ones one slope. For e without end the functions tend to one that is extreme and
    not piecewise linear, which no text can have."""
    a, rest = [Fraction(1)], f
    for length in e:
        a.append((rest + length) / 2)
        rest = (rest - length) / 2
    return f, _n_steps(f, a)


def _lost(e: Sequence[Fraction]) -> Fraction:
    return sum((length * 2**i for i, length in enumerate(e)), Fraction(0))


@family("0 < f", "2 * f <= 1", "2 <= k", source=MANY_SLOPES)
def bcdsp_arbitrary_slope(f: Number = "1/2", k: int = 4):
    """As many slopes as one likes: k. From 0 to f/2 the breakpoints are 0, and f/8^j and 2 f/8^j
    for j from k - 2 down to 1. The value at x = f/8^j and at x = 2 f/8^j is (1/4^j - x)/(1 - f).
    For k = 2 it is the mixed-integer cut."""
    front = [(Fraction(0), Fraction(0))]
    for j in range(k - 2, 0, -1):
        for x in (f / 8**j, 2 * f / 8**j):
            front.append((x, (Fraction(1, 4**j) - x) / (1 - f)))
    return f, symmetric(f, front)


def _liftings(r0: Fraction, z1: Fraction, first: Fraction, second: Fraction) -> Points:
    """From r0 on by `first` for the length z1, and then by `second`; symmetric."""
    one = 1 + first * z1
    two = one + second * z1
    back = [(r0 + z1, one), (r0 + 2 * z1, two), (1 - 2 * z1, 1 - two), (1 - z1, 1 - one)]
    return [(Fraction(0), Fraction(0)), (r0, Fraction(1)), *back]


@family("0 < r0", "0 < z1", "3 * r0 + 8 * z1 <= 1", source=LIFTINGS, unsettled=COMPENDIUM)
def mlr_cpl3_b_3_slope(r0: Number = "3/26", z1: Number = "1/13"):
    """f is r0. From 0 to 2 z1 behind f the slope is (2 z1 - 1)/(2 z1 (1 + r0)), and as far before
    1. Between these it is 1/(1 + r0). It is drlm_backward_3_slope with b = r0 + 2 z1."""
    slope = (2 * z1 - 1) / (2 * z1 * (1 + r0))
    return r0, _liftings(r0, z1, slope, slope)


@family("0 < r0", "0 < z1", "3 * r0 + 4 * z1 <= 1", source=LIFTINGS, unsettled=COMPENDIUM)
def mlr_cpl3_c_3_slope(r0: Number = "5/24", z1: Number = "1/12"):
    """f is r0. From 0 to z1 behind f the slope is (z1 - 1)/(z1 (1 + r0)), and as far before 1.
    Between these it is 1/(1 + r0). It is drlm_backward_3_slope with b = r0 + z1."""
    slope = (z1 - 1) / (z1 * (1 + r0))
    return r0, _liftings(r0, z1, slope, 1 / (1 + r0))


@family("0 < z1", "r0 == 2 * z1", "r0 + 8 * z1 <= 1", source=LIFTINGS, unsettled=COMPENDIUM)
def mlr_cpl3_d_3_slope(r0: Number = "1/6", z1: Number = "1/12"):
    """f is r0. Behind f come two pieces of the length z1, with the slopes (2 z1 + 1)/(2 z1 (r0 -
    1)) and (1 - 2 z1)/(2 z1 (1 - r0)), before 1 the same in the other order, and between them one
    of the slope 1/(r0 - 1)."""
    first = (2 * z1 + 1) / (2 * z1 * (r0 - 1))
    return r0, _liftings(r0, z1, first, (1 - 2 * z1) / (2 * z1 * (1 - r0)))


@family(
    "0 < r0 < z1", "2 * r0 + 4 * z1 == 1", source=LIFTINGS,
    unsettled=f"{COMPENDIUM} The program calls the member with r0 = z1 extreme too.",
)  # fmt: skip
def mlr_cpl3_g_3_slope(r0: Number = "1/12", z1: Number = "5/24"):
    """f is r0. Behind f come two pieces of the length z1, with the slopes 3/(3 r0 - 1) and
    (1 - 3 z1)/(z1 (1 - 3 r0)), before 1 the same in the other order, and between them one of the
    slope 3/(3 r0 - 1)."""
    return r0, _liftings(r0, z1, 3 / (3 * r0 - 1), (1 - 3 * z1) / (z1 * (1 - 3 * r0)))


@family(
    "r0 == 2 * z1", "6 * z1 <= 1 < 7 * z1", source=LIFTINGS,
    unsettled=f"{COMPENDIUM} The program calls the member with 7 * z1 = 1 extreme too.",
)  # fmt: skip
def mlr_cpl3_l_2_slope(r0: Number = "8/25", z1: Number = "4/25"):
    """f is r0. Behind f come two pieces of the length z1, with the slopes 2/(2 r0 - 1) and 1/r0,
    before 1 the same in the other order, and between them one of the slope 2/(2 r0 - 1)."""
    return r0, _liftings(r0, z1, 2 / (2 * r0 - 1), 1 / r0)


@family(
    "0 < z1", "r0 > 2 * z1", "r0 + 8 * z1 <= 1", source=LIFTINGS,
    unsettled=f"{COMPENDIUM} The program calls members with r0 = 2 * z1 extreme too.",
)  # fmt: skip
def mlr_cpl3_n_3_slope(r0: Number = "16/25", z1: Number = "1/25"):
    """f is r0. Behind f come two pieces of the length z1, with the slopes (1 + r0)/(r0 (r0 - 1))
    and 1/r0, before 1 the same in the other order, and between them one of the slope
    1/(r0 - 1)."""
    return r0, _liftings(r0, z1, (1 + r0) / (r0 * (r0 - 1)), 1 / r0)


@family(
    "0 < a < f < 1 - b", "2 * b - a <= f <= a + b", "2 * f <= 1 + a - b", source=SEARCH,
    unsettled="range, source: the range is as we remember it, and where it is published we do not "
    "know. Of members with 2 * f > 1 + a - b the program calls some extreme, and others not.",
)  # fmt: skip
def kzh_3_slope_param_extreme_2(f: Number = "5/9", a: Number = "3/9", b: Number = "2/9"):
    """Three slopes. Let v = (f - a)(2 - f - b)/(4 f (1 - f - b)). The breakpoints are 0, (f - a)/4,
    (f - a)/2, (f + a)/2, f - (f - a)/4, f, (1 + f - b)/2 and (1 + f + b)/2. The values there are 0,
    v, (f - a)/(2 f), (f + a)/(2 f), 1 - v, 1, (f - b)/(2 f) and (f + b)/(2 f)."""
    value = (f - a) * (2 - f - b) / (4 * f * (1 - f - b))
    front = [(Fraction(0), Fraction(0)), ((f - a) / 4, value), ((f - a) / 2, (f - a) / (2 * f))]
    back = [((1 + f - b) / 2, (f - b) / (2 * f)), ((1 + f + b) / 2, (f + b) / (2 * f))]
    return f, [*symmetric(f, front), *back]


@family("0 < f < 1", "1 <= k", "k * f % 1 != 0", source=K_CUTS)
def k_cut(f: Number = "2/5", k: int = 2):
    """The mixed-integer cut of the row times k: its value at k x, for the fractional part of k f in
    the place of f."""
    place = k * f % 1
    points = [(Fraction(0), Fraction(0))]
    for i in range(k):
        points += [(i / Fraction(k), Fraction(0)), ((i + place) / k, Fraction(1))]
    return f, points


@family(
    ("the function is minimal", lambda k, signs: _is_minimal(k, signs)),
    source="Gomory and Johnson, Some continuous functions related to corner polyhedra II "
    "(Mathematical Programming 3, 1972): the two-slope theorem",
    unsettled="source: in which of the two parts of the article the theorem stands.",
)
def two_slope(k: int = 5, signs: str = "++-++---"):
    """It rises on the intervals of one length with the sign + and falls on those with -, by one
    slope each, and f lies after k of them. It is the family `two-slope` of function texts."""
    strange = set(signs) - {"+", "-"}
    if strange or not 0 < k < len(signs):
        raise ValueError("signs: a word of + and -, and k of them before f, at least one behind it")
    rises, falls = signs.count("+"), signs.count("-")
    height = signs[:k].count("+") * falls - signs[:k].count("-") * rises
    step = Fraction(len(signs), height)
    slopes = [step * falls if sign == "+" else -step * rises for sign in signs]
    length = Fraction(1, len(signs))
    return k * length, by_slopes([length] * len(signs), slopes)


def _is_minimal(k: int, signs: str) -> bool:
    return gjcut.minimal(two_slope(k, signs, check_range=False)).claim == "minimal"


@family(
    source=CYCLIC, known="not-extreme",
    unsettled="source: where the function stands first. In the compendium it is, as we remember "
    "it, drlm_not_extreme_1.",
)  # fmt: skip
def extreme_at_order_7():
    """One function, with f = 6/7 and the values 0, 2/5, 4/5, 1/2, 1/5, 3/5 and 1 at the multiples
    of 1/7. Its table of order 7 is extreme, and the function is not."""
    values = [Fraction(i, 10) for i in (0, 4, 8, 5, 2, 6, 10)]
    return Fraction(6, 7), [(Fraction(i, 7), value) for i, value in enumerate(values)]
