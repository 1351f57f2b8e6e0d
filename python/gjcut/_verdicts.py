"""What the program decides of a function, of its table, and of a proof text."""
from fractions import Fraction
from typing import Iterable, List, NamedTuple, Optional, Tuple

from . import _arguments
from ._functions import Function, Point, pictures, printed

Table = Tuple[Fraction, ...]
# The limit from the left, the value, and the limit from the right.
Sides = Tuple[Fraction, Fraction, Fraction]
UNDECIDED = "this verdict is of `minimal`, which does not ask whether it is extreme: ask `extreme`"


class Violation(NamedTuple):
    """`zero`, `negative` or `asymmetric` at x, or `superadditive` at x and y."""

    kind: str
    x: Optional[Fraction] = None
    y: Optional[Fraction] = None

    def __str__(self) -> str:
        places = " and ".join(str(each) for each in (self.x, self.y) if each is not None)
        return f"{self.kind} at {places}" if places else self.kind


def _no_bool(verdict) -> bool:
    name = type(verdict).__name__
    raise TypeError(f"a {name} is no bool: ask its .is_extreme or .is_minimal")


def _is_minimal(verdict) -> bool:
    """Whether it is minimal."""
    return verdict.claim != "not-minimal"


def _is_extreme(verdict) -> bool:
    """Whether it is extreme. A verdict of `minimal` says that of no minimal function, and raises
    `ValueError`."""
    if verdict.claim == "minimal":
        raise ValueError(UNDECIDED)
    return verdict.claim == "extreme"


def _shown(verdict) -> str:
    """The claim, and what shows it, in a few words."""
    if verdict.violation:
        return f"{verdict.claim}, {verdict.violation}"
    if not verdict.halves:
        return verdict.claim
    return f"{verdict.claim}, two halves at the multiples of 1/{len(verdict.halves[0])}"


class Verdict(NamedTuple):
    """`minimal`, `not-minimal` with the first violation, `extreme`, or `not-extreme` with two
    halves; and the proof text. `violations` are as many as were asked for.

    A verdict is no bool: `is_extreme` and `is_minimal` are. The halves are functions that the
    function is the average of, by their values and limits at the multiples of 1/N. N is up to
    4,000, and commands read orders up to 1,000; `at`, `==`, `+` and the others work on every half.
    """

    claim: str
    violation: Optional[Violation]
    halves: Optional[Tuple[Function, Function]]
    text: str
    violations: Tuple[Violation, ...] = ()

    __bool__ = _no_bool
    is_minimal = property(_is_minimal)
    is_extreme = property(_is_extreme)

    @property
    def perturbation(self) -> Optional[Function]:
        """Half the difference of the halves, which are the function plus it and less it."""
        return (self.halves[0] - self.halves[1]) / 2 if self.halves else None

    def __repr__(self) -> str:
        return f"<verdict: {_shown(self)}>"

    def _repr_png_(self) -> Optional[bytes]:
        return pictures().png_of(self)

    def _repr_svg_(self) -> Optional[str]:
        return pictures().svg_of(self)


class TableVerdict(NamedTuple):
    """What is decided of the table of a function at the multiples of 1/order: `not-minimal`,
    `extreme` or `not-extreme`, with the first violation or two halves, which are tables.

    It says nothing of finer grids, and so not that the function is extreme. It is no bool:
    `is_extreme` and `is_minimal` are.
    """

    order: int
    claim: str
    violation: Optional[Violation]
    halves: Optional[Tuple[Table, Table]]
    text: str

    __bool__ = _no_bool
    is_minimal = property(_is_minimal)
    is_extreme = property(_is_extreme)

    def __repr__(self) -> str:
        return f"<verdict of the table of order {self.order}: {_shown(self)}>"


class Judgement(NamedTuple):
    """Whether a proof text is accepted, and then of which claim, or else at which line which rule
    fails; what the program wrote; and the function that the proof is of, or None for a proof by the
    line `rule gmic`. It is true exactly if the proof is accepted."""

    accepted: bool
    claim: Optional[str]
    line: Optional[int]
    rule: Optional[str]
    text: str
    function: Optional[Function] = None

    def __bool__(self) -> bool:
        return self.accepted


def verdict_of(text: str, f: Fraction) -> Verdict:
    """The verdict in a proof text about a function with this f."""
    claim, violation, halves = text[text.index("claim ") + 6 :].partition("\n")[0], None, None
    if claim == "not-minimal":
        violation = violation_of(text.splitlines()[-2])
    if claim == "not-extreme":
        first, second = halves_of(text)
        halves = _function(f, first), _function(f, second)
    return Verdict(claim, violation, halves, text, (violation,) if violation else ())


def table_verdict_of(text: str) -> TableVerdict:
    """The verdict in a group text."""
    lines = text.splitlines()
    order, claim = int(lines[1].split()[1]), lines[3].split()[1]
    violation = violation_of(lines[4]) if claim == "not-minimal" else None
    halves = None
    if claim == "not-extreme":
        first, second = ([value for _, value, _ in half] for half in halves_of(text))
        halves = tuple(first), tuple(second)
    return TableVerdict(order, claim, violation, halves, text)


def violation_of(line: str) -> Violation:
    kind, *at = line.split()
    return Violation(kind, *map(printed, at))


def halves_of(text: str) -> Tuple[List[Sides], List[Sides]]:
    """The values and limits of the two halves behind the line `halves` of a text."""
    lines = [each.split() for each in text[text.index("\nhalves ") + 1 :].splitlines()]
    scale = int(lines[0][2])
    pairs = [words[1:] for words in lines if words[0] == "pair"]
    first = [_sides(words[: len(words) // 2], scale) for words in pairs]
    second = [_sides(words[len(words) // 2 :], scale) for words in pairs]
    return first, second


def _sides(words: List[str], scale: int) -> Sides:
    """One number is the value and both limits."""
    numbers = [Fraction(int(word), scale) for word in words]
    return numbers[0], numbers[len(numbers) // 2], numbers[-1]


def _function(f: Fraction, sides: List[Sides]) -> Function:
    points = (Point(Fraction(i, len(sides)), *each) for i, each in enumerate(sides))
    return Function(f=f, points=points)


def lines_of_function(text: str) -> List[str]:
    """The lines of the function in a proof text, behind its first two; at most 1,002."""
    lines = _arguments.text(text, "text").split("\n", 1005)[2:-1]
    is_other = (line.split(" ")[0] not in ("order", "f", "point") for line in lines)
    return lines[: next((i for i, other in enumerate(is_other) if other), len(lines))]


def function_of(text: str) -> Optional[Function]:
    """The function in a proof text; None if it has the line `rule gmic`."""
    lines = lines_of_function(text)
    return Function("\n".join(["gj-function 1", *lines, "end", ""])) if lines else None


def lines_of_proof(claim: str, function_lines: Iterable[str], own_lines: Iterable[str]) -> str:
    """The text of a proof with these lines."""
    return "\n".join(["gj-proof 1", f"claim {claim}", *function_lines, *own_lines, "end", ""])
