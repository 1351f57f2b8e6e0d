"""Models of mixed-integer programs: from a file to cuts, and to a bound that is proved.

    read(path)              a Model of a file in MPS, CPLEX LP or GMPL
    Model.cuts(rounds)      rounds of cuts, which are put into its relaxation
    Model.proof()           the bound of the relaxation with these cuts, and the text that shows it
    Model.write(path)       the model with the cuts, as MPS
    Model.rows()            the rows of which cuts are made

GLPK reads the file, and says which multipliers to try. What is made of them is exact, and `gjcut
check` reads it, so that of GLPK only the reading is trusted. docs/models.md has examples.
"""
import itertools
import math
import time
from fractions import Fraction
from os import PathLike
from pathlib import Path
from typing import Callable, Dict, Iterator, List, Mapping, NamedTuple, Optional, Tuple, Union

from . import _files, _last_step, _mps, _relaxation
from ._arguments import whole, wrong
from ._functions import Rule, text_of_rule
from ._known import Known
from ._mixed_rounding import MixedRounding
from ._lines import Entries, Line, range_of
from ._problems import ROUND, Column, Constraint, round_of
from ._refusals import Refused
from ._relaxation import Relaxation, SimplexFailed, TimeOver, Unreadable
from ._row_cuts import RowCuts, Vertex, Way, in_doubles

__all__ = [
    "Cut", "Model", "NoBound", "Proof", "Relaxed", "Round", "Row", "SimplexFailed", "TimeOver",
    "Unreadable", "read",
]  # fmt: skip

# A column that is nearer than this to a whole number gives no row.
NEARLY_WHOLE = 1e-3
# Multipliers are taken over this, or that times a power of two, where data are as they come.
EXACT = 2**40
# So many rows are tried for each cut that a round may take.
ROWS_FOR_ONE = 5
# Costs are changed by so much for multipliers that serve with columns that have no bound.
CHANGES = (0.0, 1e-9, 1e-7, 1e-5)
WITHOUT = {
    "infeasible": "the relaxation has no feasible point",
    "unbounded": "the relaxation is unbounded, and there is no bound",
}
TIME_OVER = "the time was over"
# Reasons why a text is refused.
TOO_LARGE = ("large", "long")


class NoBound(ValueError):
    """There is no bound, or there are no cuts; the text says why."""


class Cut(NamedTuple):
    """At each feasible point the sum of the entries, each times its column, is at least `right`."""

    name: str
    entries: Dict[str, Fraction]
    right: Fraction


class Row(NamedTuple):
    """A whole column that is not whole at the vertex, its value, the multipliers with which the
    constraints and cuts add up to its row, and the columns at or near their upper bounds."""

    column: str
    value: float
    multipliers: Dict[str, float]
    at_upper: Tuple[str, ...]


class Round(NamedTuple):
    """A round of cuts: the bound after it, in doubles, the cuts that it brought, how many cuts are
    in the relaxation, how often each reason gave no cut, and the time in seconds."""

    number: int
    bound: float
    cuts: Tuple[Cut, ...]
    active: int
    refused: Dict[str, int]
    seconds: float


class Proof(NamedTuple):
    """At each feasible point the objective is at least `bound`, or at most, for a maximum; if the
    bound is None no point is feasible. `text` is the derivation that shows it, in so many steps."""

    bound: Optional[Fraction]
    text: str
    steps: int


class Relaxed(NamedTuple):
    """The optimum of the relaxation with its cuts, in doubles, and the vertex by its columns."""

    bound: float
    point: Dict[str, float]


class _Sides(NamedTuple):
    """The lines that are the lower and the upper side of a row of the relaxation."""

    lower: Optional[str]
    upper: Optional[str]


class _Optimum(NamedTuple):
    """An optimum of the relaxation: its value and its vertex, the line of each row that holds with
    equality, and the multipliers that show it."""

    bound: float
    vertex: Vertex
    active: List[Optional[str]]
    duals: Dict[str, float]


def read(path: Union[str, PathLike], data: Union[str, PathLike, None] = None) -> "Model":
    """The model in a file: MPS, fixed or free (`.mps`), CPLEX LP (`.lp`), or GMPL (`.mod`, and a
    file of data, if it has one). GLPK reads it, by swiglpk, and each number is taken as the decimal
    that is written there.

    A file that is not there raises `OSError`, and one that GLPK does not read `Unreadable`.
    """
    return Model(_relaxation.read(Path(path), None if data is None else Path(data)), str(path))


def _number(given: float) -> Fraction:
    """The decimal of which the double was read."""
    return Fraction(repr(given))


def _limit(given: float) -> Optional[Fraction]:
    return _number(given) if math.isfinite(given) else None


class Model:
    """A mixed-integer program, and the cuts that were made for it.

    `columns`, `constraints`, `objective` (the coefficients by the names of columns), `constant` and
    `is_maximum` say what it is. A row with two sides is two constraints, `NAME.lower` and
    `NAME.upper`. A name that no text can have, as one with a blank, is another one in texts.
    """

    def __init__(self, relaxation: Relaxation, source: str):
        self.source, self.name = source, relaxation.name()
        self.is_maximum = relaxation.is_maximum
        self.rounds: List[Round] = []
        self.ended = ""
        self._relaxation, self._variables = relaxation, relaxation.columns()
        coefficients, constant = relaxation.objective()
        self.constant, sign = _number(constant), -1 if self.is_maximum else 1
        # Those of the problem as a minimum.
        self._costs = {j: sign * _number(x) for j, x in enumerate(coefficients) if x}
        names = [each.name for each in self._variables]
        limits = ((x.is_whole, _limit(x.lower), _limit(x.upper)) for x in self._variables)
        self._known = Known(names, [range_of(*each) for each in limits])
        for j, (is_whole, lower, upper) in enumerate(self._known.program.ranges):
            if is_whole and (lower is None or upper is None or lower <= upper):
                low = -math.inf if lower is None else float(lower)
                relaxation.tighten(j, low, math.inf if upper is None else float(upper))
        # The lines of the rows of the file.
        self._sides: List[_Sides] = []
        self._read_rows()
        # The last optimum, and what the relaxation has now: "" if that is not known.
        self._optimum: Optional[_Optimum] = None
        self._status = ""
        self._refutation: Optional[Line] = None

    # ---- what it is

    def _read_rows(self) -> None:
        for i, row in enumerate(self._relaxation.rows()):
            entries = {j: _number(value) for j, value in self._relaxation.entries(i)}
            self._sides.append(self._read_sides(row, entries))
        self._rows_end = len(self._known.own)
        self._own = set(self._known.own)
        # A bound of many digits is a constraint besides.
        for j, (given, kept) in enumerate(zip(self._variables, self._known.program.ranges)):
            entries, lower, upper = {j: Fraction(1)}, _limit(given.lower), _limit(given.upper)
            if not kept.is_whole and lower != kept.lower:
                self._known.add_constraint(f"{given.name}.lower", entries, ">=", lower)
            if not kept.is_whole and upper != kept.upper:
                self._known.add_constraint(f"{given.name}.upper", entries, "<=", upper)

    def _read_sides(self, row: _relaxation.Variable, entries: Entries) -> _Sides:
        lower, upper, add = _limit(row.lower), _limit(row.upper), self._known.add_constraint
        if lower is not None and lower == upper:
            name = add(row.name, entries, "=", lower)
            return _Sides(name, name)
        has_both = lower is not None and upper is not None
        ends = (".lower", ".upper") if has_both else ("", "")
        return _Sides(
            add(row.name + ends[0], entries, ">=", lower),
            add(row.name + ends[1], entries, "<=", upper),
        )

    @property
    def columns(self) -> List[Column]:
        return [
            Column(each.name, each.is_whole, _limit(each.lower), _limit(each.upper))
            for each in self._variables
        ]

    @property
    def constraints(self) -> List[Constraint]:
        """Those of the file, and then the cuts in the relaxation."""
        return [
            Constraint(each.name, self._by_names(each.entries), each.sense, each.right)
            for each in (*self._known.constraints(), *self._cut_lines())
        ]

    @property
    def objective(self) -> Dict[str, Fraction]:
        sign = -1 if self.is_maximum else 1
        return {name: sign * value for name, value in self._by_names(self._costs).items()}

    @property
    def active(self) -> List[Cut]:
        """The cuts in the relaxation."""
        return [self._cut(each) for each in self._cut_lines()]

    def _cut(self, line: Line) -> Cut:
        return Cut(line.name, self._by_names(line.entries), line.right)

    def _cut_lines(self) -> List[Line]:
        return [self._known.lines[name] for name in self._relaxation.cuts()]

    def _by_names(self, entries: Mapping[int, Fraction]) -> Dict[str, Fraction]:
        return {self._variables[j].name: value for j, value in sorted(entries.items())}

    # ---- the relaxation

    def relaxation(self, seconds: Optional[float] = None) -> Relaxed:
        """The optimum of the relaxation with its cuts. If it has none, that raises `NoBound`; and
        `TimeOver`, if that is not known after so many seconds."""
        found = self._solved(_deadline(seconds))
        names = (each.name for each in self._variables)
        return Relaxed(found.bound, dict(zip(names, found.vertex.point)))

    def _solved(self, deadline: Optional[float]) -> _Optimum:
        self._solve(deadline)
        if self._status != "optimal":
            raise NoBound(f"{self.source}: {WITHOUT[self._status]}")
        return self._optimum

    def _solve(self, deadline: Optional[float]) -> None:
        if self._status:
            return
        status = "infeasible" if self._refutation else self._relaxation.solve(deadline)
        if status == "optimal":
            self._optimum = self._read_optimum()
        self._status = status

    def _read_optimum(self) -> _Optimum:
        problem, at_upper = self._relaxation, []
        at, point = problem.at, problem.point()
        for j, (status, value) in enumerate(zip(problem.column_statuses(), point)):
            lower, upper = self._variables[j].lower, self._variables[j].upper
            if status == at.upper or (status == at.basic and upper - value < value - lower):
                at_upper.append(j)
        active: List[Optional[str]] = []
        for sides, status in zip(self._all_sides(), problem.row_statuses()):
            side = sides.upper if status == at.upper else sides.lower or sides.upper
            active.append(None if status == at.basic else side)
        return _Optimum(problem.value(), Vertex(point, at_upper), active, self._duals(problem))

    def _all_sides(self) -> List[_Sides]:
        """Those of all rows of the relaxation."""
        return [*self._sides, *(_Sides(name, None) for name in self._relaxation.cuts())]

    def _duals(self, problem: Relaxation) -> Dict[str, float]:
        """The multipliers of lines that show the optimum."""
        found = {}
        for sides, value in zip(self._all_sides(), problem.row_duals()):
            name = sides.lower if value > 0 else sides.upper
            if value and name is not None:
                found[name] = value
        return found

    def rows(self) -> List[Row]:
        """A row for each whole column that is not whole at the vertex, those first that are
        farthest from whole. `gjcut.safe_cut` takes their multipliers as they are."""
        point, at_upper = self._solved(None).vertex
        names = tuple(self._variables[j].name for j in at_upper)
        return [
            Row(self._variables[j].name, point[j], self._multipliers(j), names)
            for j in self._fractional()
        ]

    def _fractional(self) -> List[int]:
        point, statuses = self._optimum.vertex.point, self._relaxation.column_statuses()
        found = [
            j
            for j, value in enumerate(point)
            if self._variables[j].is_whole
            and statuses[j] == self._relaxation.at.basic
            and abs(value - round(value)) > NEARLY_WHOLE
        ]
        return sorted(found, key=lambda j: abs(point[j] - math.floor(point[j]) - 0.5))

    def _multipliers(self, column: int) -> Dict[str, float]:
        active = self._optimum.active
        pairs = self._relaxation.multipliers(column).items()
        return {active[i]: value for i, value in pairs if active[i] is not None}

    # ---- cuts

    def cuts(
        self,
        rounds: int = 10,
        rule: Rule = "gmic",
        round: Optional[int] = ROUND,
        grid: Optional[int] = 2**20,
        limit: int = 100,
        mir: bool = True,
        callback: Optional[Callable[[Round], object]] = None,
        seconds: Optional[float] = None,
    ) -> List[Round]:
        """Makes rounds of cuts of the rows of the relaxation, and puts them into it.

        Data of many digits, and multipliers, are taken over `round`, or that times a power of two,
        and the numbers of cuts likewise over `grid`; with `grid` None they are as they come. With
        `round` None data are as they come, and multipliers over 2**40; more rows are too wide then.
        A round takes at most `limit` cuts, the deepest. With `mir` other sums of constraints are
        tried besides the rows of the basis, for mixed-integer rounding. After each round `callback`
        is called, and if it returns True that is the last. The rounds end too where one finds no
        cut, and after so many seconds; then `ended` says why. All rounds are in `rounds`, also
        those before Ctrl-C.

        A relaxation without an optimum raises `NoBound`, and so does a model without whole columns.
        """
        way, deadline = self._way(rule, round, grid, limit, mir), _deadline(seconds)
        count, found, self.ended = whole(rounds, "rounds"), [], ""
        if not any(each.is_whole for each in self._variables):
            raise NoBound(f"{self.source}: no column is whole, and so there are no cuts")
        try:
            self._solved(deadline)
            while len(found) < count:
                made = self._round(way, deadline)
                if made is None:
                    break
                found.append(made)
                self.rounds.append(made)
                if callback is not None and callback(made):
                    self.ended = "the caller ended the rounds"
                    break
                if self._status != "optimal":
                    self.ended = "no feasible point is left"
                    break
        except TimeOver:
            self.ended = TIME_OVER
        return found

    def _way(
        self, rule: Rule, parts: Optional[int], grid: Optional[int], limit: int, has_mir: bool
    ) -> Way:
        """The arguments of `cuts`."""
        parts, numbers = round_of(parts), {"limit": whole(limit, "limit")}
        if grid is not None:
            numbers["grid"] = whole(grid, "grid")
        for name, value in numbers.items():
            if value < 1:
                raise ValueError(f"{name}: {value} is below 1")
        if not isinstance(has_mir, bool):
            raise wrong(has_mir, "True or False", "mir")
        text = text_of_rule(rule)
        if text is not None:
            if self._known.front not in ("", text):
                raise ValueError("rule: there were cuts by another function, and a proof has one")
            self._known.front = text
        rule = "gmic" if text is None else "function"
        return Way(rule, parts or EXACT, grid, limit, has_mir, parts is None)

    def _round(self, way: Way, deadline: Optional[float]) -> Optional[Round]:
        """One round, or None where no row gives a cut."""
        started = time.monotonic()
        if not self._fractional():
            self.ended = "each whole column is whole at the vertex"
            return None
        maker = RowCuts(self._known, self._optimum.vertex, way)
        lines = maker.deepest(self._given_rows(way, deadline))
        if not lines:
            why = ", ".join(f"{count} {cause}" for cause, count in sorted(maker.refused.items()))
            self.ended = f"no row gave a cut: {why}"
            return None
        self._take(lines)
        self._solve(deadline)
        worst = -math.inf if self.is_maximum else math.inf
        bound = self._optimum.bound if self._status == "optimal" else worst
        cuts, active = tuple(map(self._cut, lines)), len(self._relaxation.cuts())
        seconds = time.monotonic() - started
        return Round(len(self.rounds) + 1, bound, cuts, active, dict(maker.refused), seconds)

    def _given_rows(self, way: Way, deadline: Optional[float]) -> Iterator[Dict[str, float]]:
        """Rows of the inverse of the basis, and others for mixed-integer rounding."""
        vertex, most = self._optimum.vertex, ROWS_FOR_ONE * way.limit
        tight = [name for name in self._optimum.active if name in self._own]
        others = MixedRounding(self._known, tight, vertex.point).rows() if way.has_mir else ()
        of_basis = map(self._multipliers, self._fractional()[:most])
        for row in itertools.islice(itertools.chain(of_basis, others), most):
            if deadline is not None and time.monotonic() > deadline:
                raise TimeOver
            yield row

    def _take(self, lines: List[Line]) -> None:
        """Puts the cuts into the relaxation, from which those go that are not needed now."""
        needed, self._status = set(self._optimum.active), ""
        self._relaxation.remove([name for name in self._relaxation.cuts() if name not in needed])
        for line in lines:
            self._known.lines[line.name] = line
            if line.entries:
                entries = [(j, float(value)) for j, value in line.entries.items()]
                self._relaxation.add(line.name, entries, float(line.right))
            else:
                self._refutation = line

    # ---- the bound

    def proof(self, seconds: Optional[float] = None) -> Proof:
        """The bound of the relaxation with its cuts, and a derivation that shows it, which the
        program has accepted. If all columns with costs are whole, and their costs multiples of one
        number, the bound is rounded to one.

        If the relaxation has no feasible point, that is shown. `NoBound` is raised where there is
        no bound, or none is found that is exact; `TimeOver` after so many seconds.
        """
        deadline = _deadline(seconds)
        # After Ctrl-C in a round the optimum before it serves.
        if self._optimum is None or self._status:
            self._solve(deadline)
        if self._status == "unbounded":
            raise NoBound(f"{self.source}: {WITHOUT['unbounded']}")
        try:
            found = self._shown(deadline)
        except Refused as error:
            if error.reason not in TOO_LARGE:
                raise
            raise NoBound(f"{self.source}: the proof is too large: {error}") from None
        if found is None:
            raise NoBound(f"{self.source}: no exact multipliers were found that show a bound")
        right = found.line.right
        has_point = found.line.entries or right <= 0
        bound = self.constant + (-right if self.is_maximum else right) if has_point else None
        return Proof(bound, found.text, found.steps)

    def _shown(self, deadline: Optional[float]) -> Optional[_last_step.Shown]:
        heading = self._heading()
        if self._refutation:
            return _last_step.accepted(self._known, [self._refutation], heading)
        if self._status == "infeasible":
            for change in CHANGES:
                duals = self._changed_duals(self._relaxation.elastic(), {}, change, deadline)
                found = _last_step.shown(self._known, {}, duals, heading) if duals else None
                # The bound 0 says nothing.
                if found is not None and found.line.right > 0:
                    return found
        duals = self._optimum.duals if self._optimum else {}
        for change in CHANGES if self._optimum else ():
            if change:
                # The basis is another one then.
                self._status = ""
                duals = self._changed_duals(self._relaxation, self._costs, change, deadline)
            found = _last_step.shown(self._known, self._costs, duals, heading)
            if found is not None:
                return found
        return None

    def _changed_duals(
        self, problem: Relaxation, costs: Entries, change: float, deadline: Optional[float]
    ) -> Dict[str, float]:
        """The multipliers for costs with a change, by which the coefficients of columns that lack a
        bound get room."""
        changed = {}
        for j, (_, lower, upper) in enumerate(self._known.program.ranges):
            if (lower is None) != (upper is None):
                cost = float(costs.get(j, 0))
                room = change * max(1.0, abs(cost))
                changed[j] = cost + (room if lower is None else -room)
        with problem.other_costs(changed):
            return self._duals(problem) if problem.solve(deadline) == "optimal" else {}

    def _heading(self) -> List[str]:
        """What a reader of a proof needs to know besides."""
        sense = "greatest" if self.is_maximum else "least"
        said = [f"A bound of {self.source}, as GLPK reads it: of its {sense} objective."]
        if self.constant:
            said.append(f"The objective has the constant {self.constant} besides its terms.")
        pairs = zip(self._known.program.names, self._variables)
        said += (f"{name} is the column {each.name!r}" for name, each in pairs if name != each.name)
        ascii_only = (line.encode("ascii", "backslashreplace").decode() for line in said)
        return [" ".join(line.split()) for line in ascii_only]

    # ---- writing

    def write(self, path: Union[str, PathLike], force: bool = False) -> None:
        """Writes the model with its cuts as free MPS, a maximum as a minimum with its sign turned.
        The numbers of the cuts are doubles, and stand in all their digits. A file that is there
        already raises `FileExistsError`, but for `force`."""
        lines = self._known.constraints()[: self._rows_end]
        lines += (in_doubles(self._known, each) for each in self._cut_lines())
        columns = [
            (name, *column[1:]) for name, column in zip(self._known.program.names, self.columns)
        ]
        constant, comment = self.constant, ""
        if self.is_maximum:
            constant = -constant
            comment = "The objective has its sign turned: a maximum stands as a minimum."
        text = _mps.text(self.name, columns, self._costs, constant, lines, comment)
        _files.write(path, text.encode(), force)


def _deadline(seconds: Optional[float]) -> Optional[float]:
    return None if seconds is None else time.monotonic() + seconds
