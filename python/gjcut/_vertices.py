"""The vertices of the polytope of minimal tables, in exact numbers, by a program that lists them.

A table of order n with f = k/n is 0 at 0 and 1 at k, and t(i) + t(k - i) = 1. So one entry of each
pair i, k - i says the other. Subadditivity is t(i) + t(j) + t(l) >= 1 for all i, j and l that add
up to k modulo n, since t(i + j) = 1 - t(l). That no entry is negative follows: n t(i) is at least
t(n i) = 0. (Gomory 1969; Gomory and Johnson 1972.)
"""
import importlib.util
import itertools
import shutil
import subprocess
from fractions import Fraction
from typing import Dict, Iterable, Iterator, List, NamedTuple, Optional, Tuple

from . import _progress
from ._functions import printed
from ._optional import PackageMissing

Table = Tuple[Fraction, ...]
# The number b and the entries a of b + a x >= 0.
Row = Tuple[int, ...]
MISSING = (
    "a search needs lrs or the Parma Polyhedra Library, and neither is here: "
    "`apt-get install lrslib`, or `apt-get install python3-ppl`"
)
PROGRAMS = ("lrs", "ppl")


class _Entry(NamedTuple):
    """An entry of a table: the number, and with a sign the unknown, if there is one."""

    number: Fraction
    sign: int = 0
    unknown: int = 0


def program_for(asked: Optional[str]) -> str:
    """The program that lists vertices: the one that is asked for, or one that is here."""
    if asked is not None and asked not in PROGRAMS:
        raise ValueError(f"program: {asked!r} is none of {' and '.join(map(repr, PROGRAMS))}")
    for name in PROGRAMS:
        if asked in (None, name) and _is_here(name):
            return name
    if asked is None:
        raise PackageMissing(MISSING)
    debian = {"lrs": "lrslib", "ppl": "python3-ppl"}[asked]
    raise PackageMissing(f"{asked} is not here: `apt-get install {debian}`")


def _is_here(name: str) -> bool:
    if name == "lrs":
        return shutil.which("lrs") is not None
    return importlib.util.find_spec("ppl") is not None


def extreme_tables(order: int, place: int, program: str, progress: Optional[bool]) -> List[Table]:
    """All extreme tables of this order with f = place/order, sorted."""
    entries = _entries(order, place)
    rows = _rows(order, place, entries)
    count = 1 + max(entry.unknown if entry.sign else -1 for entry in entries)
    if not count:
        table = tuple(entry.number for entry in entries)
        return [table] if all(row[0] >= 0 for row in rows) else []
    listed = _by_lrs(rows, count) if program == "lrs" else _by_ppl(rows, count)
    points = _progress.shown(listed, f"vertices of order {order}", None, progress)
    return sorted({_table(entries, point) for point in points})


def _table(entries: List[_Entry], point: Table) -> Table:
    return tuple(e.number + e.sign * point[e.unknown] if e.sign else e.number for e in entries)


def _entries(order: int, place: int) -> List[_Entry]:
    found: Dict[int, _Entry] = {0: _Entry(Fraction(0)), place: _Entry(Fraction(1))}
    unknowns = itertools.count()
    for i in range(order):
        other = (place - i) % order
        if i in found:
            continue
        if i == other:
            found[i] = _Entry(Fraction(1, 2))
        else:
            unknown = next(unknowns)
            found[i] = _Entry(Fraction(0), 1, unknown)
            found[other] = _Entry(Fraction(1), -1, unknown)
    return [found[i] for i in range(order)]


def _rows(order: int, place: int, entries: List[_Entry]) -> List[Row]:
    count = 1 + max(entry.unknown if entry.sign else -1 for entry in entries)
    rows = set()
    for i in range(1, order):
        for j in range(i, order):
            third = (place - i - j) % order
            if third < j:
                # The same three in another order, or two that add up to k.
                continue
            number, row = Fraction(-1), [0] * count
            for each in (entries[i], entries[j], entries[third]):
                number += each.number
                if each.sign:
                    row[each.unknown] += 2 * each.sign
            rows.add((int(2 * number), *row))
    return sorted(row for row in rows if any(row[1:]) or row[0] < 0)


def _by_lrs(rows: List[Row], count: int) -> Iterator[Table]:
    lines = ["tables", "H-representation", "begin", f"{len(rows)} {count + 1} rational"]
    lines += [" ".join(map(str, row)) for row in rows] + ["end", ""]
    words = [shutil.which("lrs") or "lrs"]
    # It writes blank lines to standard error, and what goes wrong to standard output.
    streams = {"stdin": subprocess.PIPE, "stdout": subprocess.PIPE, "stderr": subprocess.DEVNULL}
    lrs = subprocess.Popen(words, **streams, text=True)
    is_whole, last = False, ""
    try:
        lrs.stdin.write("\n".join(lines))
        lrs.stdin.close()
        for line in lrs.stdout:
            parts, last = line.split(), line
            if parts == ["end"]:
                is_whole = True
            elif parts and not is_whole and parts[0] == "1" and len(parts) == count + 1:
                yield tuple(map(printed, parts[1:]))
        lrs.wait()
    finally:
        if lrs.poll() is None:
            lrs.kill()
            lrs.wait()
        lrs.stdout.close()
    if not is_whole:
        raise RuntimeError(f"lrs ended with status {lrs.returncode} before its list did: {last}")


def _by_ppl(rows: List[Row], count: int) -> Iterable[Table]:
    ppl = importlib.import_module("ppl")
    unknowns = [ppl.Variable(i) for i in range(count)]
    system = ppl.Constraint_System()
    for number, *row in rows:
        system.insert(sum(a * x for a, x in zip(row, unknowns)) + number >= 0)
    for point in ppl.C_Polyhedron(system).minimized_generators():
        divisor = int(point.divisor())
        yield tuple(Fraction(int(point.coefficient(x)), divisor) for x in unknowns)
