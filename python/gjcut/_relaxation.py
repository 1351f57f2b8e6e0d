"""Linear relaxations of models, by GLPK: it reads the file, solves, and gives rows of the inverse
of the basis. Everything here is in doubles; what is proved is made of it elsewhere."""
import contextlib
import gzip
import math
import os
import re
import sys
import tempfile
import time
import weakref
from pathlib import Path
from typing import Dict, Iterable, Iterator, List, Mapping, NamedTuple, Optional, Sequence, Tuple

from ._optional import needed

KINDS = {".mps": "MPS", ".lp": "CPLEX LP", ".mod": "GMPL"}
# A bound from here on is none, for many programs.
INFINITE = 1e20
# GLPK is left so often, in milliseconds, that Ctrl-C is heard.
SLICE = 200
# A section of MPS that GLPK refuses, and how it tells a fault.
SENSE = re.compile(rb"^OBJSENSE\s+(MAX|MIN)\w*[^\n]*\n", re.M | re.I)
FAULT = re.compile(r":(\d+): (.*)")


class Unreadable(ValueError):
    """A file that GLPK does not read; the text has what it says."""


class SimplexFailed(RuntimeError):
    """GLPK gives up a relaxation, for reasons of numbers."""


class TimeOver(Exception):
    """The time is over."""


class Variable(NamedTuple):
    """A column or a row of a file: its name, and its bounds, where infinity is none."""

    name: str
    lower: float
    upper: float
    is_whole: bool = False


class At(NamedTuple):
    """Where columns and rows stand at a basic solution, by their statuses."""

    lower: int
    upper: int
    basic: int


class Relaxation:
    """A linear program that GLPK holds. Columns and rows count from 0."""

    def __init__(self, glpk, problem):
        self.glpk, self._problem = glpk, problem
        self.at = At(glpk.GLP_NL, glpk.GLP_NU, glpk.GLP_BS)
        self.is_maximum = glpk.glp_get_obj_dir(problem) == glpk.GLP_MAX
        self._is_new, self._own = True, glpk.glp_get_num_rows(problem)
        weakref.finalize(self, glpk.glp_delete_prob, problem)

    # ---- what it is

    def columns(self) -> List[Variable]:
        ask, p = self.glpk, self._problem
        return [
            Variable(
                ask.glp_get_col_name(p, j) or f"x{j}",
                _bound(ask.glp_get_col_lb(p, j)),
                _bound(ask.glp_get_col_ub(p, j)),
                ask.glp_get_col_kind(p, j) != ask.GLP_CV,
            )
            for j in range(1, ask.glp_get_num_cols(p) + 1)
        ]

    def rows(self) -> List[Variable]:
        ask, p = self.glpk, self._problem
        return [
            Variable(
                ask.glp_get_row_name(p, i) or f"c{i}",
                _bound(ask.glp_get_row_lb(p, i)),
                _bound(ask.glp_get_row_ub(p, i)),
            )
            for i in range(1, ask.glp_get_num_rows(p) + 1)
        ]

    def entries(self, row: int) -> List[Tuple[int, float]]:
        ask, p = self.glpk, self._problem
        count = ask.glp_get_mat_row(p, row + 1, None, None)
        places, values = ask.intArray(count + 1), ask.doubleArray(count + 1)
        ask.glp_get_mat_row(p, row + 1, places, values)
        return sorted((places[k] - 1, values[k]) for k in range(1, count + 1))

    def objective(self) -> Tuple[List[float], float]:
        """The coefficients, and the constant."""
        ask, p = self.glpk, self._problem
        first, *others = (
            ask.glp_get_obj_coef(p, j) for j in range(ask.glp_get_num_cols(p) + 1)
        )
        return others, first

    def name(self) -> str:
        return self.glpk.glp_get_prob_name(self._problem) or ""

    # ---- the simplex method

    def solve(self, deadline: Optional[float] = None) -> str:
        """"optimal", "infeasible" or "unbounded". After the deadline it raises `TimeOver`."""
        ask, p = self.glpk, self._problem
        self.remove(())
        if self._is_new:
            self._start()
        found = self._solve_by(ask.GLP_DUALP, deadline)
        if found != ask.GLP_OPT:
            # It may be a matter of numbers: once more, from another basis and in the other way.
            ask.glp_std_basis(p)
            found = self._solve_by(ask.GLP_PRIMAL, deadline)
        names = {
            ask.GLP_OPT: "optimal", ask.GLP_NOFEAS: "infeasible", ask.GLP_UNBND: "unbounded"
        }  # fmt: skip
        if found not in names:
            raise SimplexFailed("GLPK gives up the relaxation")
        return names[found]

    def _solve_by(self, method: int, deadline: Optional[float]) -> Optional[int]:
        """The status after the simplex method, or None where it fails. It is left now and then, so
        that Ctrl-C is heard, and goes on from the basis that it has."""
        ask, how = self.glpk, self.glpk.glp_smcp()
        ask.glp_init_smcp(how)
        how.msg_lev, how.meth, how.tm_lim = ask.GLP_MSG_OFF, method, SLICE
        while True:
            failed = ask.glp_simplex(self._problem, how)
            if failed == ask.GLP_EBOUND:
                # A lower bound is above its upper one.
                return ask.GLP_NOFEAS
            if failed != ask.GLP_ETMLIM:
                return None if failed else ask.glp_get_status(self._problem)
            if deadline is not None and time.monotonic() > deadline:
                raise TimeOver
            how.tm_lim = min(2 * how.tm_lim, 10 * SLICE)

    def _start(self) -> None:
        ask, p = self.glpk, self._problem
        was_on = ask.glp_term_out(ask.GLP_OFF)
        ask.glp_scale_prob(p, ask.GLP_SF_AUTO)
        ask.glp_adv_basis(p, 0)
        ask.glp_term_out(was_on)
        self._is_new = False

    def value(self) -> float:
        return self.glpk.glp_get_obj_val(self._problem)

    def point(self) -> List[float]:
        ask, p = self.glpk, self._problem
        return [ask.glp_get_col_prim(p, j) for j in range(1, ask.glp_get_num_cols(p) + 1)]

    def column_statuses(self) -> List[int]:
        ask, p = self.glpk, self._problem
        return [ask.glp_get_col_stat(p, j) for j in range(1, ask.glp_get_num_cols(p) + 1)]

    def row_statuses(self) -> List[int]:
        ask, p = self.glpk, self._problem
        return [ask.glp_get_row_stat(p, i) for i in range(1, ask.glp_get_num_rows(p) + 1)]

    def row_duals(self) -> List[float]:
        """Of the problem as a minimum."""
        ask, p = self.glpk, self._problem
        sign = -1.0 if self.is_maximum else 1.0
        return [sign * ask.glp_get_row_dual(p, i) for i in range(1, ask.glp_get_num_rows(p) + 1)]

    def multipliers(self, column: int) -> Dict[int, float]:
        """The multipliers with which the rows add up to the row of a basic column."""
        ask, p = self.glpk, self._problem
        if not ask.glp_bf_exists(p) and ask.glp_factorize(p):
            raise SimplexFailed("GLPK cannot factorize the basis")
        count = ask.glp_get_num_rows(p)
        found = ask.doubleArray(count + 1)
        for i in range(1, count + 1):
            found[i] = 0.0
        found[ask.glp_get_col_bind(p, column + 1)] = 1.0
        ask.glp_btran(p, found)
        return {i - 1: found[i] for i in range(1, count + 1) if found[i] != 0.0}

    # ---- changes

    def cuts(self) -> List[str]:
        """The names of the rows that were added."""
        ask, p = self.glpk, self._problem
        rows = range(self._own + 1, ask.glp_get_num_rows(p) + 1)
        return [ask.glp_get_row_name(p, i) for i in rows]

    def add(self, name: str, entries: Sequence[Tuple[int, float]], right: float) -> None:
        """A row: the sum of the entries is at least the right side."""
        ask, p = self.glpk, self._problem
        row = ask.glp_add_rows(p, 1)
        places, values = ask.intArray(len(entries) + 1), ask.doubleArray(len(entries) + 1)
        for k, (column, value) in enumerate(entries, 1):
            places[k], values[k] = column + 1, value
        ask.glp_set_row_bnds(p, row, ask.GLP_LO, right, 0.0)
        ask.glp_set_mat_row(p, row, len(entries), places, values)
        # As GLPK sees it, its greatest entry is 1.
        greatest = max(abs(value) * ask.glp_get_sjj(p, column + 1) for column, value in entries)
        ask.glp_set_rii(p, row, 1.0 / greatest)
        ask.glp_set_row_name(p, row, name)

    def tighten(self, column: int, lower: float, upper: float) -> None:
        """Gives a column other bounds."""
        ask = self.glpk
        kinds = {
            (True, True): ask.GLP_FR, (True, False): ask.GLP_UP, (False, True): ask.GLP_LO,
            (False, False): ask.GLP_FX if lower == upper else ask.GLP_DB,
        }  # fmt: skip
        kind = kinds[math.isinf(lower), math.isinf(upper)]
        ask.glp_set_col_bnds(self._problem, column + 1, kind, lower, upper)

    def remove(self, names: Iterable[str]) -> None:
        """Removes rows that were added, also one that Ctrl-C has left without a name."""
        ask, p = self.glpk, self._problem
        wanted = {None, *names}
        rows = [i for i, name in enumerate(self.cuts(), self._own + 1) if name in wanted]
        given = ask.intArray(len(rows) + 1)
        for k, row in enumerate(rows, 1):
            given[k] = row
        if rows:
            ask.glp_del_rows(p, len(rows), given)

    @contextlib.contextmanager
    def other_costs(self, costs: Mapping[int, float]) -> Iterator[None]:
        """Some costs, of the problem as a minimum, are others for some time."""
        ask, p = self.glpk, self._problem
        sign = -1.0 if self.is_maximum else 1.0
        kept = {j: ask.glp_get_obj_coef(p, j + 1) for j in costs}
        try:
            for j, cost in costs.items():
                ask.glp_set_obj_coef(p, j + 1, sign * cost)
            yield
        finally:
            for j, cost in kept.items():
                ask.glp_set_obj_coef(p, j + 1, cost)

    def elastic(self) -> "Relaxation":
        """The problem to find the least sum of the amounts by which rows are violated."""
        ask, p = self.glpk, self._problem
        copy = ask.glp_create_prob()
        ask.glp_copy_prob(copy, p, ask.GLP_OFF)
        ask.glp_set_obj_dir(copy, ask.GLP_MIN)
        for j in range(ask.glp_get_num_cols(p) + 1):
            ask.glp_set_obj_coef(copy, j, 0.0)
        places, values = ask.intArray(2), ask.doubleArray(2)
        for i in range(1, ask.glp_get_num_rows(p) + 1):
            for sign in (1.0, -1.0):
                column = ask.glp_add_cols(copy, 1)
                places[1], values[1] = i, sign
                ask.glp_set_col_bnds(copy, column, ask.GLP_LO, 0.0, 0.0)
                ask.glp_set_obj_coef(copy, column, 1.0)
                ask.glp_set_mat_col(copy, column, 1, places, values)
        return Relaxation(ask, copy)


def _bound(given: float) -> float:
    return math.copysign(math.inf, given) if abs(given) >= INFINITE else given


# ---- files


def read(path: Path, data: Optional[Path] = None) -> Relaxation:
    """The relaxation of a model in a file. A file that is not there raises `OSError`, and one that
    GLPK does not read `Unreadable`."""
    kind = _kind_of(path)
    glpk = needed("swiglpk", "models", "python3-swiglpk")
    for each in (path, data):
        if each is not None:
            each.open("rb").close()
    problem = glpk.glp_create_prob()
    with tempfile.TemporaryDirectory() as folder:
        said = Path(folder) / "said"
        with _heard(glpk, said):
            is_read = {"MPS": _read_mps, "CPLEX LP": _read_lp, "GMPL": _read_gmpl}[kind](
                glpk, problem, path, data, Path(folder)
            )
        if not is_read:
            raise Unreadable(f"{path}: GLPK does not read it as {kind}{_fault(said)}")
    return Relaxation(glpk, problem)


def _kind_of(path: Path) -> str:
    suffixes = [each.lower() for each in path.suffixes if each.lower() != ".gz"]
    if not suffixes or suffixes[-1] not in KINDS:
        ends = ", ".join(f"{suffix} ({kind})" for suffix, kind in KINDS.items())
        raise Unreadable(f"{path}: its name must end with one of {ends}")
    return KINDS[suffixes[-1]]


def _fault(said: Path) -> str:
    """The line and the words of the first fault that GLPK tells."""
    lines = said.read_text(encoding="utf-8", errors="replace").splitlines()
    found = (FAULT.search(line) for line in lines if "warning" not in line)
    return next((f": line {each[1]}: {each[2]}" for each in found if each), "")


@contextlib.contextmanager
def _heard(glpk, path: Path) -> Iterator[None]:
    """What GLPK prints goes to a file."""
    if sys.stdout is not None:
        sys.stdout.flush()
    kept, was_on = os.dup(1), glpk.glp_term_out(glpk.GLP_ON)
    try:
        with path.open("wb") as said:
            os.dup2(said.fileno(), 1)
        yield
    finally:
        os.dup2(kept, 1)
        os.close(kept)
        glpk.glp_term_out(was_on)


def _read_mps(glpk, problem, path: Path, _data, folder: Path) -> bool:
    """Free MPS is tried first: it has nearly all that is fixed. GLPK has no line OBJSENSE."""
    opened = gzip.open if path.suffix.lower() == ".gz" else open
    with opened(path, "rb") as source:
        text = source.read()
    sense, name = SENSE.search(text), str(path)
    if sense:
        plain = folder / path.name.replace(".gz", "")
        # The lines keep their numbers.
        comments = b"*\n" * sense[0].count(b"\n")
        plain.write_bytes(text[: sense.start()] + comments + text[sense.end() :])
        name = str(plain)
    for form in (glpk.GLP_MPS_FILE, glpk.GLP_MPS_DECK):
        if glpk.glp_read_mps(problem, form, None, name) == 0:
            if sense and sense[1].upper() == b"MAX":
                glpk.glp_set_obj_dir(problem, glpk.GLP_MAX)
            return True
        glpk.glp_erase_prob(problem)
    return False


def _read_lp(glpk, problem, path: Path, _data, _folder) -> bool:
    return glpk.glp_read_lp(problem, None, str(path)) == 0


def _read_gmpl(glpk, problem, path: Path, data: Optional[Path], _folder) -> bool:
    translator = glpk.glp_mpl_alloc_wksp()
    try:
        skips_data = 1 if data else 0
        if glpk.glp_mpl_read_model(translator, str(path), skips_data):
            return False
        if data and glpk.glp_mpl_read_data(translator, str(data)):
            return False
        if glpk.glp_mpl_generate(translator, None):
            return False
        glpk.glp_mpl_build_prob(translator, problem)
        return True
    finally:
        glpk.glp_mpl_free_wksp(translator)
