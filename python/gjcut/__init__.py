"""Verdicts on cut-generating functions, and their cuts; docs/library.md has examples.

Functions of the package, each with an example in its help:

    by_breakpoints(f, points)       a Function by its breakpoints
    by_values(f, values)            by its values at the multiples of 1/q
    family(name, ..)                of a family
    by_text(text)                   from a function text
    minimal(function)               whether it is minimal, a Verdict
    extreme(function)               whether it is extreme, a Verdict
    check(text)                     whether a proof text or a derivation is right, a Judgement
    faces(function)                 its maximal additive faces, Faces
    covered(function)               its components of covered intervals, Covered
    group(function)                 whether the table of its own order is extreme
    cut(rule, columns, rows)        the cuts of rows of whole columns, Cuts
    mixed(rule, columns, rows)      the cuts of rows with continuous columns, Cuts
    safe_cut(columns, constraints, multipliers)   a cut of a mixed-integer program, a SafeCut
    safe_cuts(columns, constraints, sums)         the cuts of many sums of one program
    Derivation(columns, constraints)              your own cuts, step by step, each by what shows it
    fill(function), times(function, n, j), mirror(function), restrict(function, order)
                                    functions made of functions
    literature.gmic(f), ..          functions of the literature by their parameters
    from_piecewise(h)               a function of cutgeneratingfunctionology
    model.read(path)                a model in MPS, CPLEX LP or GMPL: its cuts, its bound, proved
    map(command, functions)         the answers to many functions, by processes or any executor
    search(order, f)                all extreme functions of an order
    plot(function), plot_faces(function)          a Picture of a function, also of a verdict
    call(words, text)               the answer to any command

A Function f has f(x), f.slopes, f.breakpoints, f.is_continuous, f.order, f.text and f.breaks(), and
sums and multiples. A Verdict has .is_extreme, .is_minimal, .violation, .halves, .perturbation and
.text, the proof; it is no bool. A Judgement is true exactly if the proof is accepted.

The library is called with the standard library of Python alone, and everything comes back as
`Fraction`s, with what the program writes as `text`. A number is an int, a `Fraction`, a `Decimal`,
or a text such as "3/5" or "0.25"; a float is refused, since it is seldom the number that was meant,
and so is a bool. Only the multipliers of `safe_cut` and of a `Derivation` may be floats. Where a
list is wanted, each iterable serves but a text, a mapping and a set. What has another type than it
should raises `TypeError`, which says where it stands. An input that is refused, and a function with
which a command does nothing, raise `Refused`, which says what it means and what to do. A step of a
`Derivation` that does not follow raises `Rejected`.

Several threads may call at once, and so may several processes. But the child of a fork in a process
with several threads must not call: where a process has threads, give `multiprocessing` the way
"spawn" or "forkserver", by `multiprocessing.get_context("spawn")`.

Nothing of this package is proved: it hands texts to the library, whose answers are. For a paper
write the `text` of a verdict to a file, let the proved `gjcut check` accept it, and cite that.
"""
import importlib
import itertools
from collections.abc import Mapping
from fractions import Fraction
from typing import Iterable, Iterator, List, NamedTuple, Optional, Sequence, Tuple, Union

from . import _build
from ._arguments import Number, fields as _fields, items as _items, number as _number
from ._arguments import text as _text, whole as _whole, word as _word, written as _written
from ._asked import EXTREME as _EXTREME, FACES as _FACES
from ._asked import done as _done, of_function as _of_function, refused as _refused
from ._derivations import Derivation, Draft, Rejected, Step
from ._derivations import judged as _judged
from ._faces import Cover, Covered, Face, Faces
from ._faces import covered_of as _covered_of, faces_of as _faces_of
from ._functions import Function, Point, Rule
from ._functions import function as _function, line as _line, printed as _printed
from ._functions import text_of_rule as _text_of_rule
from ._library import Answer, LibraryMissing, call
from ._optional import PackageMissing
from ._plot import Picture, plot, plot_faces
from ._problems import Column, Constraint, SafeCut, safe_cut, safe_cuts
from ._refusals import RIGHT, Place, Refused
from ._refusals import Row as _Row, always as _always
from ._refusals import places_of_breakpoints as _places_of_breakpoints
from ._refusals import places_of_tableau as _places_of_tableau
from ._refusals import places_of_values as _places_of_values
from ._verdicts import Judgement, TableVerdict, Verdict, Violation
from ._verdicts import function_of as _function_of, lines_of_function as _lines_of_function
from ._verdicts import table_verdict_of as _table_verdict_of, verdict_of as _verdict_of
from ._violations import violations_of as _violations_of
from .sentences import is_derivation as _is_derivation

__version__ = _build.version()

__all__ = [
    "Answer", "Column", "Constraint", "Cover", "Covered", "Cut", "Cuts", "Derivation", "Draft",
    "Face", "Faces", "Function", "Judgement", "LibraryMissing", "Number", "PackageMissing",
    "Picture", "Place", "Point", "Refused", "Rejected", "SafeCut", "Step", "TableVerdict", "Term",
    "Verdict", "Violation",
    "by_breakpoints", "by_text", "by_values", "call", "check", "covered", "cut", "extreme", "faces",
    "family", "fill", "group", "minimal", "mirror", "mixed", "plot", "plot_faces", "restrict",
    "safe_cut", "safe_cuts", "times",
]  # fmt: skip


class Term(NamedTuple):
    """A column, its entry in the row, and its coefficient or weight in the cut."""

    name: str
    entry: Fraction
    coefficient: Fraction


class Cut(NamedTuple):
    """The sum of each coefficient times its column, over terms and weights, is at least 1; or
    `skipped` says why there is no cut."""

    basic: str
    right: Fraction
    terms: Tuple[Term, ...]
    weights: Tuple[Term, ...]
    skipped: Optional[str]


class Cuts(NamedTuple):
    """The cuts of rows, in their order, and the text that the program wrote."""

    cuts: Tuple[Cut, ...]
    text: str


Row = Tuple[str, Number, Iterable[Number]]
# What belongs in the place of a value of another type.
_A_NAME = "the name, which is a str"
_NAMES, _ROWS = "a list of names", "a list of rows"
_A_ROW = "a name, a right side and a list of entries"
_ENTRIES, _VALUES = "a list of entries", "a list of values"
_POINTS = "a list of points, as [(0, 0), ('1/2', 1)]"
_ITEMS = "a list of points: of a dict by places that is list(points.items())"
_A_POINT = "a place and a value, or a place, a limit, the value and a limit"


def by_text(text: Union[str, bytes]) -> Function:
    """The function of a function text, in each form that the program reads.

    >>> by_text("gj-function 2\\nf 3/5\\npoint 0 0\\npoint 3/5 1\\nend\\n").order
    5
    """
    return Function(_done("show", text))


def by_breakpoints(f: Number, points: Iterable[Sequence[Number]]) -> Function:
    """The function with these breakpoints: each a place and a value, or a place, the limit from the
    left, the value, and the limit from the right.

    >>> gmic = by_breakpoints("3/5", [(0, 0), ("3/5", 1)])
    >>> gmic.at("1/5"), gmic.order
    (Fraction(1, 3), 5)
    """
    lines, wanted = [], _ITEMS if isinstance(points, Mapping) else _POINTS
    for i, point in enumerate(_items(points, wanted, "points")):
        numbers = _items(point, _A_POINT, "points", i)
        lines.append(_line("point", *(_word(each, "points", i) for each in numbers)))
    text = "gj-function 2\n" + _line("f", _word(f, "f")) + "".join(lines) + "end\n"
    return Function(_done("show", text, _places_of_breakpoints(len(lines))))


def by_values(f: Number, values: Iterable[Union[Number, Sequence[Number]]]) -> Function:
    """The function with these values at the multiples of 1/q, q their number; a tuple is the limit
    from the left, the value, and the limit from the right.

    >>> by_values("1/2", [0, "1/4", 1, "3/4"]).at("3/8")
    Fraction(5, 8)
    """
    lines = []
    for i, value in enumerate(_items(values, _VALUES, "values")):
        numbers = value if isinstance(value, (tuple, list)) else (value,)
        lines.append(_line("point", *(_word(each, "values", i) for each in numbers)))
    front = "gj-function 1\n" + _line("order", len(lines)) + _line("f", _word(f, "f"))
    return Function(_done("show", front + "".join(lines) + "end\n", _places_of_values(len(lines))))


def family(name: str, *words: Union[Number, str]) -> Function:
    """The function of a family: `family("gmic", f)`, `family("half", f)` or `family("two-slope", k,
    signs)`.

    >>> family("two-slope", 5, "++-++---").order
    8
    """
    parts = [_single(_text(name, "name", wanted=_A_NAME), "name")]
    for i, word in enumerate(words):
        is_text = isinstance(word, str)
        part = _text(word, "words", i) if is_text else _word(word, "words", i)
        parts.append(_single(part, "words", i))
    text = "gj-function 1\n" + _line("family", *parts) + "end\n"
    return Function(_done("show", text, _always("family")))


def _single(word: str, *place) -> str:
    if word.split() != [word]:
        raise ValueError(f"{Place(*place)}: {word!r} is no single word")
    return word


def _verdict(command: str, function: Function, violations: int) -> Verdict:
    count = _whole(violations, "violations")
    if count < 1:
        raise ValueError(f"violations: {count} is below 1")
    function = _function(function)
    verdict = _verdict_of(_of_function(command, function), function.f)
    if count == 1 or not verdict.violation:
        return verdict
    lines = _lines_of_function(verdict.text)
    found = tuple(itertools.islice(_violations_of(function, lines), count))
    return verdict._replace(violations=found)


def minimal(function: Function, violations: int = 1) -> Verdict:
    """Whether the function is minimal, with the first violation if it is not.

    More violations than the first, up to that number, are looked for by this package, and each is
    accepted by `check`: at multiples of 1/q, and beside those where only a limit fails.

    >>> verdict = minimal(by_values("1/2", [0, "1/3", 1, "1/2"]), violations=10)
    >>> verdict.violation
    Violation(kind='asymmetric', x=Fraction(1, 4), y=None)
    >>> print(*verdict.violations, sep=", ")
    asymmetric at 1/4, superadditive at 1/4 and 1/4
    """
    return _verdict("minimal", function, violations)


def extreme(function: Function, violations: int = 1) -> Verdict:
    """Whether the function is extreme: minimal, and no average of two other valid functions. If it
    is minimal and not extreme, with two halves of which it is the average; if it is not minimal, as
    `minimal` says it. Functions that jump are decided like continuous ones.

    >>> extreme(family("gmic", "3/5")).is_extreme
    True
    >>> extreme(by_breakpoints("3/5", [(0, "5/6", 0, 0), ("3/5", 1, 1, "1/6")])).is_extreme
    True
    >>> six = by_values("1/2", [0, "2/3", "1/3", 1, "1/3", "2/3"])
    >>> verdict = extreme(six)
    >>> verdict
    <verdict: not-extreme, two halves at the multiples of 1/24>
    >>> first, second = verdict.halves
    >>> (first + second) / 2 == six, six + verdict.perturbation == first, first == second
    (True, True, False)
    """
    return _verdict(_EXTREME, function, violations)


def check(text: Union[str, bytes]) -> Judgement:
    """What the checker says of a proof text, as that of a verdict or of cuts, and of which function
    it is; or of a derivation. If a step of that does not follow, `rule` is what stands against it.

    >>> judgement = check(extreme(family("gmic", "3/5")).text)
    >>> judgement.accepted, judgement.claim, judgement.function == family("gmic", "3/5")
    (True, 'extreme', True)
    >>> if judgement: print("it is accepted")
    it is accepted
    """
    wanted = "a str, or bytes"
    read = text.decode("latin-1") if isinstance(text, bytes) else _text(text, "text", wanted=wanted)
    if _is_derivation(read):
        return _judged(read)
    answer = call("check", text)
    if answer.status > 1:
        raise _refused("check", text, answer)
    words, function = answer.text.split(), _function_of(read)
    if answer.status:
        return Judgement(False, None, int(words[2]), words[3], answer.text, function)
    return Judgement(True, words[1], None, None, answer.text, function)


def faces(function: Function) -> Faces:
    """The maximal additive faces of a function, its covered and its uncovered intervals. On an
    additive face the slack is 0, and if the function jumps its limits from the inside of the face
    are 0 at the corners.

    >>> found = faces(family("gmic", "3/5"))
    >>> found.faces[0], len(found.covers), found.uncovered
    (Face(kind='lower', order=5, a=0, b=0), 5, ())
    """
    return _faces_of(_of_function(_FACES, function))


def covered(function: Function) -> Covered:
    """The covered intervals of a function by components, on each of which every function in an
    average has one slope, and the uncovered ones.

    >>> for component in covered(family("gmic", "3/5")).components:
    ...     print(*(f"[{left}, {right}]" for left, right in component))
    [0, 3/5]
    [3/5, 1]
    """
    return _covered_of(_of_function(_FACES, function))


def group(function: Function) -> TableVerdict:
    """Whether the table of a continuous function at the multiples of 1/q, q its order, is extreme
    for the finite group problem. q is up to 120. It says nothing of the function on finer grids.

    >>> seven = by_values("6/7", [0, "2/5", "4/5", "1/2", "1/5", "3/5", 1])
    >>> group(seven).is_extreme, extreme(seven).is_extreme
    (True, False)
    """
    return _table_verdict_of(_of_function("group", function))


def cut(rule: Rule, columns: Iterable[str], rows: Iterable[Row]) -> Cuts:
    """The cuts of rows in which every column is whole, by a function or by the rule "gmic".

    A row is the name of its basic variable, its right side, and its entries in the order of the
    columns. An entry of 0 gives no term. A name that begins with `c:` is a whole column here like
    any other; `mixed` has continuous ones.

    >>> found = cut("gmic", ["x1", "s1"], [("x0", "8/5", ["7/5", "-1/5"])])
    >>> found.cuts[0].terms[0]
    Term(name='x1', entry=Fraction(7, 5), coefficient=Fraction(2, 3))
    """
    return _cuts("cut", rule, columns, rows)


def mixed(rule: Rule, columns: Iterable[str], rows: Iterable[Row]) -> Cuts:
    """The cuts of rows with continuous columns, those whose names begin with `c:` (a small letter),
    by a function or by the rule "gmic".

    A whole column gives a term and a continuous one a weight. Rows are as for `cut`.

    >>> mixed("gmic", ["x1", "c:z"], [("x0", "12/5", ["3/4", "-3/2"])]).cuts[0].weights
    (Term(name='c:z', entry=Fraction(-3, 2), coefficient=Fraction(5, 2)),)
    """
    return _cuts("mixed", rule, columns, rows)


def _field(name: str) -> str:
    return '"' + name.replace('"', '""') + '"'


def _name(given: str, *place) -> str:
    name = _text(given, *place, wanted=_A_NAME)
    if name.strip(" \t") != name:
        raise ValueError(f"{Place(*place)}: the name {name!r} has a blank at an end")
    return name


def _cuts(command: str, rule: Rule, columns: Iterable[str], rows: Iterable[Row]) -> Cuts:
    front = _text_of_rule(rule) or "gj-rule 1\ngmic\nend\n"
    names = [_name(each, "columns", i) for i, each in enumerate(_items(columns, _NAMES, "columns"))]
    table = list(_rows(names, rows))
    records = [["basic", "rhs", *map(_field, names)]]
    for i, (basic, right, entries) in enumerate(table):
        try:
            records.append([_field(basic), str(right), *map(str, entries)])
        except ValueError as error:
            raise ValueError(f"{Place('rows', i)}: {error}") from None
    text = front + "".join(",".join(record) + "\n" for record in records)
    said = _done(command, text, _places_of_tableau(names, table))
    return Cuts(tuple(_read_cuts(said)), said)


def _rows(names: Sequence[str], rows: Iterable[Row]) -> Iterator[_Row]:
    shown = [repr(name) for name in names]
    for i, row in enumerate(_items(rows, _ROWS, "rows")):
        basic, right, entries = _fields(row, 3, _A_ROW, "rows", i)
        numbers = _items(entries, _ENTRIES, "rows", i, "the entries")
        wheres = itertools.chain(shown, itertools.repeat("an entry behind the last column"))
        yield (
            _name(basic, "rows", i),
            _number(right, "rows", i, RIGHT),
            [_number(each, "rows", i, where) for each, where in zip(numbers, wheres)],
        )


def _read_cuts(said: str) -> List[Cut]:
    # The name, the right side and why there is no cut; the terms; the weights.
    found: List[Tuple[Tuple[str, Fraction, Optional[str]], List[Term], List[Term]]] = []
    for kind, *words in map(str.split, said.splitlines()):
        if kind in ("cut", "skip"):
            why = words[2] if kind == "skip" else None
            found.append(((words[0], _printed(words[1]), why), [], []))
        elif kind in ("term", "weight"):
            term = Term(words[0], _printed(words[1]), _printed(words[2]))
            found[-1][1 if kind == "term" else 2].append(term)
    return [
        Cut(basic, right, tuple(terms), tuple(weights), why)
        for (basic, right, why), terms, weights in found
    ]


def fill(function: Function) -> Function:
    """The two-slope fill-in of a continuous function, which is subadditive; by its breakpoints.

    >>> fill(family("gmic", "3/5")) == family("gmic", "3/5")
    True
    """
    return Function(_of_function("fill", function))


def times(function: Function, n: int, j: int = 0) -> Function:
    """The function of n x, with the place (f + j)/n.

    >>> times(family("gmic", "3/5"), 2, 1).f
    Fraction(4, 5)
    """
    n, j = _whole(n, "n"), _whole(j, "j")
    words = f"times {_written(n, 'n')} {_written(j, 'j')}"
    return Function(_of_function(words, function, "j" if n > 0 and not 0 <= j < n else "n"))


def mirror(function: Function) -> Function:
    """The function of -x, with the place 1 - f.

    >>> mirror(family("gmic", "3/5")) == family("gmic", "2/5")
    True
    """
    return Function(_of_function("mirror", function))


def restrict(function: Function, order: int) -> Function:
    """The continuous function of this order with the values of the function at the multiples of
    1/order.

    >>> restrict(by_values("1/2", [0, "1/4", 1, "3/4"]), 2) == family("gmic", "1/2")
    True
    """
    words = f"restrict {_written(_whole(order, 'order'), 'order')}"
    return Function(_of_function(words, function, "order"))


# What stands on the calls above is read when it is first asked for. And `map` is no name of this
# module, in which it is Python's own.
_LATER = {
    "TableClass": "_search",
    "from_piecewise": "_piecewise",
    "literature": "literature",
    "map": "_map",
    "model": "model",
    "search": "_search",
}
__all__ += sorted(_LATER)


def __getattr__(name: str):
    if name not in _LATER:
        raise AttributeError(f"module {__name__!r} has no attribute {name!r}")
    module = importlib.import_module(f".{_LATER[name]}", __name__)
    return module if name == _LATER[name] else getattr(module, name)


def __dir__():
    return sorted({*globals(), *_LATER})
