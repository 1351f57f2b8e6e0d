"""A line that shows how far a long call is."""
import importlib
import sys
from typing import Iterable, Optional, TypeVar

from ._arguments import wrong
from ._optional import needed

Item = TypeVar("Item")


def asked(progress: Optional[bool]) -> Optional[bool]:
    """True, False, or None for a line at a terminal alone."""
    if progress is None or isinstance(progress, bool):
        return progress
    raise wrong(progress, "True, False or None", "progress")


def shown(
    given: Iterable[Item], what: str, total: Optional[int], progress: Optional[bool]
) -> Iterable[Item]:
    """The items, with a line by tqdm. Where it is not asked for, tqdm need not be there."""
    if progress is False:
        return given
    if progress:
        tqdm = needed("tqdm", "progress lines", "python3-tqdm")
    else:
        try:
            tqdm = importlib.import_module("tqdm")
        except ImportError:
            return given
    # With None tqdm looks itself whether standard error is a terminal.
    return tqdm.tqdm(given, desc=what, total=total, disable=None if progress is None else False)


def say(line: str) -> None:
    """Prints a line, above one that shows how far it is."""
    tqdm = sys.modules.get("tqdm")
    if tqdm is None:
        print(line, flush=True)
    else:
        tqdm.tqdm.write(line, file=sys.stdout)
        sys.stdout.flush()
