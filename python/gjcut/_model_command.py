"""The command `cuts` of `python3 -m gjcut`: from a model to a bound that is proved."""
import argparse
import math
import re
import time
from fractions import Fraction
from pathlib import Path
from typing import Mapping

from . import _files, _mps, _progress, model
from ._optional import PackageMissing
from ._problems import MOST_ROUND, ROUND

# The statuses: GLPK does not read the file; it is not there; a file cannot be written; there is no
# bound, or there are no cuts; a package is missing; the time was over; Ctrl-C.
NOT_READ, NO_FILE, NOT_WRITTEN, NOTHING, NO_PACKAGE, TIME_OVER, ENDED = 3, 4, 5, 8, 15, 16, 130


def add_parsers(commands) -> None:
    help_ = "rounds of cuts of a model in MPS, CPLEX LP or GMPL, and its bound, proved"
    made = commands.add_parser(
        "cuts",
        help=help_,
        description="Rounds of cuts of a mixed-integer program, which GLPK reads and relaxes, and "
        "the bound of the relaxation with them, which a derivation shows: `check` reads it.",
    )
    made.add_argument("model", metavar="MODEL", help="a file .mps, .lp or .mod")
    made.add_argument("--data", metavar="FILE", help="the data of a model in GMPL")
    made.add_argument("--rounds", metavar="COUNT", type=_count, default=10, help="10, if not given")
    limit = "so many cuts a round at most: 100, if not given"
    made.add_argument("--limit", metavar="COUNT", type=_count, default=100, help=limit)
    seconds = "end the rounds after this time"
    made.add_argument("--seconds", metavar="S", type=_seconds, help=seconds)
    parts = "multipliers, and data of many digits, are taken over this: 2^20, if not given"
    made.add_argument("--round", metavar="N", type=_parts, default=ROUND, help=parts)
    grid = "the numbers of the cuts are taken over this: 2^20, if not given"
    made.add_argument("--grid", metavar="N", type=_count, default=2**20, help=grid)
    only = "take rows of the inverse of the basis alone, and none for mixed-integer rounding"
    made.add_argument("--no-mir", action="store_true", help=only)
    made.add_argument("--write", metavar="FILE", help="write the model with its cuts, as MPS")
    made.add_argument("--proof", metavar="FILE", help="write the derivation that shows the bound")
    made.add_argument("--force", action="store_true", help="replace files that are there already")
    progress = "show how far it is, also where standard error is no terminal"
    made.add_argument("--progress", action="store_true", help=progress)


def _count(word: str) -> int:
    if not (word.isascii() and word.isdigit() and len(word) < 20 and int(word)):
        raise argparse.ArgumentTypeError(f"{word} is no whole number from 1 on")
    return int(word)


def _parts(word: str) -> int:
    if _count(word) > MOST_ROUND:
        raise argparse.ArgumentTypeError(f"{word} is above {MOST_ROUND}")
    return int(word)


def _seconds(word: str) -> float:
    if not re.fullmatch(r"[0-9]+(\.[0-9]*)?", word):
        raise argparse.ArgumentTypeError(f"{word} is no number of seconds")
    return float(word)


def run(chosen: argparse.Namespace) -> int:
    """Does what the words ask, says what it did, and gives the status."""
    for name in (chosen.write, chosen.proof):
        if name is not None and Path(name).exists() and not chosen.force:
            print(f"{name}: it is there already: write --force to replace it")
            return NOT_WRITTEN
    try:
        given = model.read(chosen.model, chosen.data)
    except OSError as error:
        print(f"{error.filename or chosen.model}: it cannot be read: {error.strerror}")
        return NO_FILE
    except PackageMissing as missing:
        print(f"gjcut: {missing}")
        return NO_PACKAGE
    except model.Unreadable as error:
        print(error)
        return NOT_READ
    return _bounded(given, chosen)


def _bounded(given: model.Model, chosen: argparse.Namespace) -> int:
    """The rounds, the bound and the files."""
    print(_described(given), flush=True)
    status = 0
    try:
        status = _rounds(given, chosen)
    except model.TimeOver:
        print("the time was over before the relaxation was solved")
        return TIME_OVER
    except (model.NoBound, model.SimplexFailed) as error:
        print(error)
        status = NOTHING
    except KeyboardInterrupt:
        print(f"Ctrl-C after {_counted(len(given.rounds), 'round')}")
        status = ENDED
    try:
        return max(status, _proved(given, chosen))
    except (model.NoBound, model.SimplexFailed) as error:
        if status != NOTHING:
            print(error)
        return max(status, NOTHING)
    except KeyboardInterrupt:
        print("Ctrl-C before the bound was proved")
        return ENDED


def _described(given: model.Model) -> str:
    columns, constraints = given.columns, given.constraints
    whole = sum(each.is_whole is True for each in columns)
    sense = "maximum" if given.is_maximum else "minimum"
    constant = f"; its constant is {_exact(given.constant)}" if given.constant else ""
    return (
        f"{given.source}: a {sense} over {_counted(len(columns), 'column')}, of which {whole:,} "
        f"{'is' if whole == 1 else 'are'} whole, and {_counted(len(constraints), 'constraint')}"
        f"{constant}"
    )


def _counted(count: int, what: str) -> str:
    return f"{count:,} {what}{'' if count == 1 else 's'}"


def _rounds(given: model.Model, chosen: argparse.Namespace) -> int:
    """A line for each round."""
    started = time.monotonic()
    print(f"relaxation: {_rounded(given.relaxation(chosen.seconds).bound)}", flush=True)
    progress = chosen.progress or None
    for _ in _progress.shown(range(chosen.rounds), "rounds", chosen.rounds, progress):
        left = None
        if chosen.seconds is not None:
            left = max(0.0, chosen.seconds - (time.monotonic() - started))
        words = {"round": chosen.round, "grid": chosen.grid, "limit": chosen.limit}
        made = given.cuts(1, **words, mir=not chosen.no_mir, seconds=left)
        for each in made:
            _progress.say(_round_in_words(each))
        if given.ended:
            _progress.say(f"no further round: {given.ended}")
            break
    return TIME_OVER if given.ended == model.TIME_OVER else 0


def _round_in_words(made: model.Round) -> str:
    bound = "no feasible point" if made.bound == math.inf else _rounded(made.bound)
    refused = sum(made.refused.values())
    why = f"; {_counted(refused, 'row')} gave none: {_causes(made.refused)}" if refused else ""
    cuts = f"{_counted(len(made.cuts), 'new cut')}, {made.active:,} in all"
    return f"round {made.number}: {bound}, {cuts}{why}; {made.seconds:.2f} s"


def _causes(refused: Mapping[str, int]) -> str:
    return ", ".join(f"{count} {why}" for why, count in sorted(refused.items()))


def _rounded(value: float) -> str:
    return f"{value:.9g}"


def _proved(given: model.Model, chosen: argparse.Namespace) -> int:
    """Says what is proved, and writes the files."""
    started = time.monotonic()
    proof = given.proof()
    seconds = time.monotonic() - started
    texts = [(chosen.proof, lambda name: _files.write(name, proof.text.encode(), True))]
    texts.append((chosen.write, lambda name: given.write(name, True)))
    for name, write in texts:
        try:
            if name is not None:
                write(name)
        except OSError as error:
            print(f"{name}: it cannot be written: {error.strerror}")
            return NOT_WRITTEN
    if proof.bound is None:
        said = "no point is feasible"
    else:
        side = "at most" if given.is_maximum else "at least"
        said = f"the objective is {side} {_exact(proof.bound)} at each feasible point"
    how = f"{_counted(proof.steps, 'step')} in {len(proof.text.encode()):,} bytes"
    where = f": {chosen.proof}" if chosen.proof else ", which --proof writes"
    print(f"proved: {said}")
    print(f"the proof has {how}, and was made and checked in {seconds:.2f} s{where}")
    if chosen.write:
        print(f"the model with {_counted(len(given.active), 'cut')}: {chosen.write}")
    return 0


def _exact(value: Fraction) -> str:
    """As a decimal, if it is one."""
    found = _mps.decimal_of(value)
    return str(value) if found is None else f"{found:f}"
