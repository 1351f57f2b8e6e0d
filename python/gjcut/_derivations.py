"""Derivations: chains of inequalities over a mixed-integer program, each with what shows it."""
import itertools
import re
from collections import abc
from fractions import Fraction
from typing import Container, Dict, Iterable, Iterator, List, Mapping, NamedTuple, Optional
from typing import Sequence, Tuple, Union

from ._arguments import Number, fields, items, number, text as text_of, whole, word, written, wrong
from ._asked import done, refused
from ._explain_derivation import sum_in_words
from ._functions import Function, function as a_function, line, printed
from ._library import Answer, call
from ._problems import A_NAME, Column, Constraint, Multiplier, bits_of, column_line, column_place
from ._problems import columns_of, constraint_lines, constraint_places, constraints_of, name_of
from ._problems import names_of, rounded, size_of
from ._refusals import REFUSED, Place
from ._verdicts import Judgement
from .sentences import cause_in_words, first_word

TITLE = "gj-derivation 1\n"
RULES, CUTS = ("linear", "gmic", "function"), ("gmic", "function")
# The statuses of a function that jumps, and of one that is not minimal.
NO_FUNCTION = (8, 9)
# What belongs in the place of a value of another type.
MULTIPLIERS = "a dict with the multipliers by the names of constraints and steps"
TERMS = "a dict with the numbers by the names of columns"
A_RULE, DRAFTS = "the name of a rule, which is a str", "a list of Drafts"


class Draft(NamedTuple):
    """A step whose claim may be left open: the multipliers of constraints and of earlier steps by
    their names, and the rule, "linear", "gmic" or "function". Without `terms` it claims what it
    shows; without `right`, with the greatest right side. `at_upper` names the columns that a cut
    turns by their upper bounds, and the inequality is multiplied by `times`. Without a name it gets
    one."""

    by: Mapping[str, Multiplier]
    rule: str = "linear"
    terms: Optional[Mapping[str, Number]] = None
    right: Optional[Number] = None
    at_upper: Iterable[str] = ()
    times: Number = 1
    name: Optional[str] = None


class Step(NamedTuple):
    """A step that follows: the sum of the terms, each times its column, is at least `right` at each
    feasible point. `str(step)` is that inequality."""

    name: str
    rule: str
    by: Dict[str, Fraction]
    at_upper: Tuple[str, ...]
    times: Fraction
    terms: Dict[str, Fraction]
    right: Fraction

    def __str__(self) -> str:
        terms = [(name, str(value)) for name, value in self.terms.items()]
        return f"{sum_in_words(terms)} >= {self.right}"


class Rejected(ValueError):
    """A step that shows nothing, or does not show what it claims.

    `step` is its name, and `cause` the word of the program: "sign", "free", "integral", "other",
    "bound", "right", "wide" or "lost". `about` is the column, the constraint or the step that the
    cause is about, or the greatest right side that the terms may have, or None.
    """

    def __init__(self, step: str, cause: str, about: Union[str, Fraction, None] = None):
        self.step, self.cause, self.about = step, cause, about
        words = [cause] if about is None else [cause, str(about)]
        super().__init__(f"step {step!r}: {cause_in_words(words)}")

    def __reduce__(self):
        return Rejected, (self.step, self.cause, self.about)


Shown = Union[Step, Rejected]


class _Known(NamedTuple):
    """A constraint, or the claim of a step as one: its lines, and its entries."""

    lines: Sequence[str]
    entries: Mapping[str, Number]


class _Places(NamedTuple):
    """Where the values of a draft stand: in the arguments of a call, or in a list of drafts."""

    index: Optional[int]

    def words(self, argument: str, within: Optional[str] = None) -> Tuple:
        """The words of a `Place`."""
        if self.index is None:
            return argument, None, within
        return "drafts", self.index, argument if within is None else f"{argument}, {within}"

    def of(self, argument: str, within: Optional[str] = None) -> Place:
        return Place(*self.words(argument, within))


class _Asked(NamedTuple):
    """A draft that has been judged: the names of its lines `by`, and each way in which their
    multipliers are taken; the lines behind these, each with the value in it; and which columns
    these name."""

    name: str
    rule: str
    by: Sequence[str]
    ways: Sequence[Sequence[Fraction]]
    at_upper: Tuple[str, ...]
    times: Fraction
    rest: Sequence[Tuple[str, Place]]
    columns: Sequence[str]
    places: _Places

    def lines(self, way: int) -> Iterator[Tuple[str, Optional[Place]]]:
        """The lines of the step, each with the value in it."""
        yield line("step", self.name, self.rule), None
        for name, multiplier in zip(self.by, self.ways[way]):
            place = self.places.of("by", repr(name))
            yield line("by", name, written(multiplier, *place)), place
        yield from self.rest

    def step(self, way: int, terms: Dict[str, Fraction], right: Fraction) -> Step:
        by = dict(zip(self.by, self.ways[way]))
        return Step(self.name, self.rule, by, self.at_upper, self.times, terms, right)


class Derivation:
    """A chain of inequalities over a mixed-integer program, built step by step. A step adds up
    constraints and earlier steps, each times its multiplier, and claims what is shown so, or less.

    Columns and constraints are those of `safe_cut`; the names of constraints and steps are all
    different. `function` is that of steps by the rule "function", minimal and continuous. A step
    that shows nothing, or does not show its claim, raises `Rejected`, which says why, and is not
    added. What is shown holds at each feasible point if `check()` accepts the text.

    >>> x, y = Column("x", True, 0, None), Column("y", True, 0, None)
    >>> z = Column("z", False, 0, None)
    >>> first = Constraint("first", {"x": 2, "y": 1}, "<=", 7)
    >>> second = Constraint("second", {"x": 1, "y": 3, "z": -1}, "<=", 9)
    >>> chain = Derivation([x, y, z], [first, second])
    >>> print(chain.cut({"first": "3/5", "second": "-1/5"}, name="a"))
    -5/3 x - 5/3 y + 5/6 z >= -20/3
    >>> print(chain.cut({"first": "-1/5", "second": "2/5"}, name="b"))
    -5/2 x - 25/4 y + 5/2 z >= -75/4
    >>> print(chain.linear({"a": "6/5", "b": "2/5", "first": "-1/2"}, name="best"))
    -4 x - 5 y + 2 z >= -19
    >>> chain.check().accepted
    True
    """

    def __init__(
        self,
        columns: Iterable[Column],
        constraints: Iterable[Constraint],
        function: Optional[Function] = None,
    ):
        """Reads the program. What is wrong with it raises `Refused`, as for `safe_cut`."""
        given, rows = columns_of(columns), constraints_of(constraints)
        self._function = None if function is None else a_function(function)
        self._front = self._function.text if self._function else ""
        lines = [column_line(i, column) for i, column in enumerate(given)]
        self._columns = {column.name: text for column, text in zip(given, lines)}
        self._order = {name: i for i, name in enumerate(self._columns)}
        groups = [list(constraint_lines(i, row, self._order)) for i, row in enumerate(rows)]
        self._program = TITLE + "".join(itertools.chain(lines, *groups))
        self._steps: List[Step] = []
        self._texts: List[str] = []
        places = [Place("function")] * self._front.count("\n") + [Place("columns")]
        places += [column_place(i, column) for i, column in enumerate(given)]
        for i, row in enumerate(rows):
            places += constraint_places(i, row)
        _answer("check", self.text, places)
        self._known = {
            row.name: _Known(group, dict(row.entries)) for row, group in zip(rows, groups)
        }

    @property
    def steps(self) -> Tuple[Step, ...]:
        """The steps, in their order."""
        return tuple(self._steps)

    @property
    def text(self) -> str:
        """The text of the derivation, which `check` reads: for a paper, write it to a file and let
        the proved `gjcut check` accept it."""
        return "".join([self._front, self._program, *self._texts, "end\n"])

    def __repr__(self) -> str:
        constraints = len(self._known) - len(self._steps)
        counts = f"{len(self._columns)} columns, {constraints} constraints"
        return f"<derivation: {counts}, {len(self._steps)} steps>"

    def check(self) -> Judgement:
        """What the checker says of the whole text; it is true exactly if it is accepted.

        >>> chain = Derivation([], [Constraint("c", {}, ">=", "1/3")])
        >>> print(chain.claim({}, 1, {"c": 1}))
        0 >= 1
        >>> chain.check().text
        'accepted derivation\\n'
        """
        return judged(self.text, self._function)

    def linear(
        self,
        by: Mapping[str, Multiplier],
        times: Number = 1,
        grid: Optional[int] = None,
        name: Optional[str] = None,
        bits: Optional[int] = None,
    ) -> Step:
        """Adds up constraints and steps. The multiplier of a `<=` is not above 0, that of a `>=` or
        of a step not below 0. If all terms are whole, the right side is rounded up.

        >>> x, y = Column("x", True, 0, None), Column("y", True, 0, None)
        >>> chain = Derivation([x, y], [Constraint("c", {"x": 2, "y": 2}, "<=", 3)])
        >>> print(chain.linear({"c": "-1/2"}))
        -x - y >= -1
        """
        return self._add(Draft(by, times=times, name=name), grid, bits)

    def cut(
        self,
        by: Mapping[str, Multiplier],
        rule: str = "gmic",
        grid: Optional[int] = None,
        at_upper: Iterable[str] = (),
        times: Number = 1,
        name: Optional[str] = None,
        bits: Optional[int] = None,
    ) -> Step:
        """A cut of the sum of constraints and steps, by the rule "gmic" or "function". The
        multipliers may be any numbers; floats are taken to `bits` bits, as by `safe_cut`. With
        `grid` the coefficients are multiples of 1/grid, and the right side is the greatest for
        them."""
        if text_of(rule, "rule", wanted=A_RULE) not in CUTS:
            how = "write \"gmic\" or \"function\""
            raise ValueError(f"rule: there is no rule {rule!r} of a cut: {how}")
        return self._add(Draft(by, rule, at_upper=at_upper, times=times, name=name), grid, bits)

    def claim(
        self,
        terms: Mapping[str, Number],
        right: Optional[Number],
        by: Mapping[str, Multiplier],
        rule: str = "linear",
        times: Number = 1,
        at_upper: Iterable[str] = (),
        name: Optional[str] = None,
        bits: Optional[int] = None,
    ) -> Step:
        """Your own inequality, by what shows it: the sum of the terms is at least `right`. If that
        is None, the greatest right side is taken.

        >>> x, y = Column("x", True, 0, None), Column("y", True, 0, None)
        >>> chain = Derivation([x, y], [Constraint("c", {"x": 3, "y": 5}, "<=", 11)])
        >>> try:
        ...     chain.claim({"x": -1, "y": -1}, -2, {"c": "-1/3"})
        ... except Rejected as rejected:
        ...     print(rejected)
        step 's1': with these terms the right side is at most -3
        """
        if not isinstance(terms, abc.Mapping):
            raise wrong(terms, TERMS, "terms")
        return self._add(Draft(by, rule, terms, right, at_upper, times, name), None, bits)

    def extend(
        self, drafts: Iterable[Draft], grid: Optional[int] = None, bits: Optional[int] = None
    ) -> List[Union[Step, Rejected]]:
        """Adds many steps by one call, and gives each. One that shows nothing is left out, and its
        `Rejected` stands in its place. A claim that does not follow, and a draft that names one
        that is left out, raise theirs, and then none is added. For the bits of a float a draft of
        this call without terms counts as one whose greatest entry is 1.

        >>> x = Column("x", True, 0, None)
        >>> chain = Derivation([x], [Constraint("c", {"x": 2}, "<=", 7)])
        >>> for each in chain.extend([Draft({"c": 1}, "gmic"), Draft({"c": "1/2"}, "gmic")]):
        ...     print(each)
        step 's1': the right side of the sum is whole, with its columns turned to their bounds
        -2 x >= -6
        """
        wanted = f"Draft({', '.join(Draft._fields)})"
        given = []
        for i, each in enumerate(items(drafts, DRAFTS, "drafts")):
            if not isinstance(each, Draft):
                each = Draft(*fields(each, len(Draft._fields), wanted, "drafts", i))
            given.append(each)
        return self._extend(given, [_Places(i) for i, _ in enumerate(given)], grid, bits)

    def _add(self, draft: Draft, grid: Optional[int], bits: Optional[int]) -> Step:
        (found,) = self._extend([draft], [_Places(None)], grid, bits)
        if isinstance(found, Rejected):
            raise found
        return found

    def _extend(
        self,
        drafts: Sequence[Draft],
        places: Sequence[_Places],
        grid: Optional[int],
        bits: Optional[int],
    ) -> List[Shown]:
        grid, bits = None if grid is None else whole(grid, "grid"), bits_of(bits)
        names, asked = self._names(drafts, places), []
        before: Dict[str, Mapping[str, Number]] = {}
        for draft, name, place in zip(drafts, names, places):
            asked.append(self._asked(draft, name, place, before, bits))
            before[name] = draft.terms or {}
        found = self._found(asked, grid)
        for each in found:
            if isinstance(each, Step):
                self._steps.append(each)
                self._texts.append("".join(_step_lines(each)))
                self._known[each.name] = _Known(list(_constraint_lines(each)), each.terms)
        return found

    # ---- the arguments

    def _names(self, drafts: Sequence[Draft], places: Sequence[_Places]) -> List[str]:
        """The names of drafts; those that have none get new ones."""
        given: Dict[str, None] = {}
        for draft, place in zip(drafts, places):
            if draft.name is not None:
                name = name_of(draft.name, *place.words("name"))
                if name in self._known or name in given:
                    raise ValueError(f"{place.of('name')}: another line has the name {name!r}")
                given[name] = None
        numbered = map("s{}".format, itertools.count(len(self._steps) + 1))
        new = (name for name in numbered if name not in self._known and name not in given)
        named = iter(given)
        return [next(new if draft.name is None else named) for draft in drafts]

    def _asked(
        self,
        draft: Draft,
        name: str,
        places: _Places,
        before: Mapping[str, Mapping[str, Number]],
        bits: Sequence[int],
    ) -> _Asked:
        """The draft, judged. What it names must be known here, or be before it in the same call,
        where its terms stand by its name: the program is told the columns and the constraints that
        are named, and no others."""
        rule, by = self._rule(draft, places), self._multipliers(draft, places, before)
        where = [places.words("by", repr(other)) for other in by]
        known = self._known
        entries = (known[other].entries if other in known else before[other] for other in by)
        sizes = [size_of(each) for each in entries]
        ways = list(rounded(list(draft.by.values()), sizes, where.__getitem__, bits))
        if not ways:
            raise ValueError(f"{places.of('by')}: a multiplier has more than 127 bits")
        at_upper = self._at_upper(draft, places)
        rest = [(line("upper", column), places.of("at_upper")) for column in at_upper]
        times = number(draft.times, *places.words("times"))
        if times != 1:
            shown = written(times, *places.words("times"))
            rest.append((line("times", shown), places.of("times")))
        claim, columns = self._claim(draft, places)
        columns += at_upper
        rest += claim
        return _Asked(name, rule, by, ways, tuple(at_upper), times, rest, columns, places)

    def _rule(self, draft: Draft, places: _Places) -> str:
        rule = text_of(draft.rule, *places.words("rule"), wanted=A_RULE)
        if rule not in RULES:
            which = f"{places.of('rule')}: there is no rule {rule!r}"
            raise ValueError(f"{which}: a rule is \"linear\", \"gmic\" or \"function\"")
        if rule == "function" and not self._function:
            raise ValueError(f"{places.of('rule')}: the derivation has no function")
        return rule

    def _multipliers(self, draft: Draft, places: _Places, before: Container[str]) -> List[str]:
        """The names of what is added up."""
        if not isinstance(draft.by, abc.Mapping):
            raise wrong(draft.by, MULTIPLIERS, *places.words("by"))
        names = [text_of(name, *places.words("by"), wanted=A_NAME) for name in draft.by]
        for name in names:
            if name not in self._known and name not in before:
                raise ValueError(f"{places.of('by')}: there is no constraint or step {name!r}")
        return names

    def _at_upper(self, draft: Draft, places: _Places) -> List[str]:
        place = places.words("at_upper")
        names = [self._column(name, place) for name in names_of(draft.at_upper, *place)]
        return list(dict.fromkeys(names))

    def _claim(self, draft: Draft, places: _Places) -> Tuple[List[Tuple[str, Place]], List[str]]:
        """The lines of the claim, and the columns of its terms."""
        if draft.terms is None:
            if draft.right is not None:
                raise ValueError(f"{places.of('right')}: a right side is claimed without terms")
            return [], []
        if not isinstance(draft.terms, abc.Mapping):
            raise wrong(draft.terms, TERMS, *places.words("terms"))
        right, columns = "-", []
        if draft.right is not None:
            right = word(draft.right, *places.words("right"))
        lines = [(line("claim", right), places.of("right"))]
        for name, value in draft.terms.items():
            where = places.words("terms", repr(name))
            columns.append(self._column(name, where))
            lines.append((line("term", columns[-1], word(value, *where)), Place(*where)))
        return lines, columns

    def _column(self, given: str, place: Sequence) -> str:
        name = text_of(given, *place, wanted=A_NAME)
        if name not in self._columns:
            raise ValueError(f"{Place(*place)}: there is no column {name!r}")
        return name

    # ---- a call

    def _found(self, asked: Sequence[_Asked], grid: Optional[int]) -> List[Shown]:
        """What the drafts show. Where a number is too wide, multipliers that are floats are taken
        over a lesser power of 2."""
        ways = [0] * len(asked)
        while True:
            found, failed = self._ask(asked, ways, grid)
            wide = [
                i
                for i, each in found.items()
                if isinstance(each, Rejected) and each.cause == "wide"
                if len(asked[i].ways) > ways[i] + 1
            ]
            if not wide:
                break
            for i in wide:
                ways[i] += 1
        if failed is not None:
            raise failed
        return [found[i] for i, _ in enumerate(asked)]

    def _ask(
        self, asked: Sequence[_Asked], ways: Sequence[int], grid: Optional[int]
    ) -> Tuple[Dict[int, Shown], Optional[Rejected]]:
        """What each draft shows; or the one that fails, alone."""
        lines = [*self._told(asked)]
        places: List[Optional[Place]] = [None] * len(lines)
        if grid is not None:
            lines.append(line("grid", written(grid, "grid")))
            places.append(Place("grid"))
        draft_at = {}
        for i, (each, way) in enumerate(zip(asked, ways)):
            draft_at[len(lines) + 1] = i
            for text, place in each.lines(way):
                lines.append(text)
                places.append(place)
        answer = _answer("derive", "".join([*lines, "end\n"]), places)
        words = answer.text.split()
        if answer.status:
            i = draft_at[int(words[2])]
            failed = _rejected(asked[i].name, words[3:])
            return {i: failed}, failed
        claims, found = dict(_claims(answer.text)), {}
        for i, (each, way) in enumerate(zip(asked, ways)):
            claim = claims[each.name]
            found[i] = claim if isinstance(claim, Rejected) else each.step(way, *claim)
        return found, None

    def _told(self, asked: Sequence[_Asked]) -> Iterator[str]:
        """The lines of the columns and of the constraints that these name."""
        if any(each.rule == "function" for each in asked):
            yield from self._front.splitlines(keepends=True)
        yield TITLE
        own = {each.name for each in asked}
        named = [other for each in asked for other in each.by if other not in own]
        known = [self._known[other] for other in dict.fromkeys(named)]
        columns = {column for each in asked for column in each.columns}
        columns.update(column for each in known for column in each.entries)
        for column in sorted(columns, key=self._order.__getitem__):
            yield self._columns[column]
        for each in known:
            yield from each.lines


def _step_lines(step: Step) -> Iterator[str]:
    yield line("step", step.name, step.rule)
    yield from (line("by", name, multiplier) for name, multiplier in step.by.items())
    yield from (line("upper", name) for name in step.at_upper)
    if step.times != 1:
        yield line("times", step.times)
    yield line("claim", step.right)
    yield from (line("term", name, value) for name, value in step.terms.items())


def _constraint_lines(step: Step) -> Iterator[str]:
    """The claim of a step as a constraint."""
    yield line("constraint", step.name, ">=", step.right)
    yield from (line("entry", name, value) for name, value in step.terms.items())


def _answer(words: str, text: str, places: Sequence[Optional[Place]]) -> Answer:
    """The answer, unless it is a refusal: the value at fault is that in the line that is refused,
    and else the function."""
    answer = call(words, text)
    if answer.status <= 1:
        return answer
    found, place = REFUSED.fullmatch(answer.text), None
    if found:
        place = next(itertools.islice(places, int(found[2]) - 1, None), None)
    elif answer.status in NO_FUNCTION:
        place = Place("function")
    raise refused(words, text, answer, place)


def _rejected(step: str, words: Sequence[str]) -> Rejected:
    """The cause, and what it is about."""
    about = words[1] if len(words) > 1 else None
    return Rejected(step, words[0], printed(about) if words[0] == "right" else about)


# The terms and the right side of a step.
Claim = Tuple[Dict[str, Fraction], Fraction]


def _claims(said: str) -> Iterator[Tuple[str, Union[Claim, Rejected]]]:
    """Each step by its name: what it claims, or why it shows nothing."""
    name, terms = "", {}
    for kind, *words in map(str.split, said.splitlines()):
        if kind == "#":
            yield words[0], _rejected(words[0], words[1:])
        elif kind == "step":
            name, terms = words[0], {}
        elif kind == "claim":
            # The terms follow.
            yield name, (terms, printed(words[0]))
        elif kind == "term":
            terms[words[0]] = printed(words[1])


def judged(text: str, function: Optional[Function] = None) -> Judgement:
    """What the checker says of a text that it reads as a derivation."""
    answer = _answer("check", text, ())
    words = answer.text.split()
    if function is None and first_word(text) == "gj-function":
        front = re.match(r"(?s:.*?)^[ \t]*end[ \t\r]*$", text, re.M)
        function = Function(done("show", front[0]))
    if answer.status:
        return Judgement(False, None, int(words[2]), " ".join(words[3:]), answer.text, function)
    return Judgement(True, words[1], None, None, answer.text, function)
