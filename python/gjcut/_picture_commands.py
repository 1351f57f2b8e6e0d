"""The commands `plot` and `report` of `python3 -m gjcut`."""
import argparse
import os
from typing import List, Optional, Tuple

from . import _build, _files, _plot, _report, command_line
from ._library import LibraryMissing, call
from ._optional import PackageMissing
from ._verdicts import Verdict, function_of, verdict_of

# The statuses: nothing is done with such a function; a file cannot be written; a package is
# missing; the words are not understood.
NOTHING, NOT_WRITTEN, NO_PACKAGE, NOT_UNDERSTOOD = 8, 5, 15, 2


def add_parsers(commands) -> None:
    """The words of the two commands."""
    help_ = "a picture of a function, as .svg, .png or .pdf"
    plot = commands.add_parser(
        "plot", help=help_, description="The graph of a function, and where it is not minimal."
    )
    way = plot.add_mutually_exclusive_group()
    faces = "the diagram of its additive faces, in place of the graph"
    way.add_argument("--faces", action="store_true", help=faces)
    halves = "the two halves of a function that is not extreme, and their difference"
    way.add_argument("--halves", action="store_true", help=halves)
    plot.add_argument("files", metavar="FILE", nargs="?", default="-")
    help_ = "a page of HTML with pictures, verdicts and proofs in words"
    words = f"{help_[0].upper()}{help_[1:]}."
    report = commands.add_parser("report", help=help_, description=words)
    report.add_argument("files", metavar="FILE", nargs="*")
    for command, name in ((plot, "NAME"), (report, "NAME.html")):
        output = "the file to write"
        command.add_argument("-o", "--output", metavar=name, required=True, help=output)
        force = "replace a file of this name that is there already"
        command.add_argument("--force", action="store_true", help=force)


def run(chosen: argparse.Namespace) -> int:
    """Does what the words ask, says what it did, and gives the status."""
    if os.path.exists(chosen.output) and not chosen.force:
        print(f"{chosen.output}: it is there already: write --force to replace it")
        return NOT_WRITTEN
    try:
        return (_plot_file if chosen.command == "plot" else _report_on)(chosen)
    except PackageMissing as missing:
        print(f"gjcut: {missing}")
        return NO_PACKAGE
    except LibraryMissing:
        raise
    except OSError as error:
        print(f"{chosen.output}: it cannot be written: {error.strerror}")
        return NOT_WRITTEN


def _plot_file(chosen: argparse.Namespace) -> int:
    try:
        kind = _plot.suffix_of(chosen.output)
    except ValueError:
        ends = " or ".join(f".{kind}" for kind in _plot.DATES)
        print(f"{chosen.output}: its name must end with {ends}")
        return NOT_UNDERSTOOD
    command = "extreme" if chosen.halves else "faces" if chosen.faces else "minimal"
    said, verdict, status = _decided(chosen.files, command)
    if status:
        print(said)
        return status
    if chosen.halves and not verdict.halves:
        print(f"{said}\nSo it has no halves, and nothing was drawn.")
        return NOTHING
    draw = _plot.plot_faces if chosen.faces else _plot.plot
    _files.write(chosen.output, draw(verdict).bytes(kind[1:]), chosen.force)
    what = "the diagram of its faces" if chosen.faces else "the graph"
    print(f"{said}\n{chosen.output}: {'two halves' if chosen.halves else what}")
    return 0


def _decided(file: str, command: str) -> Tuple[str, Optional[Verdict], int]:
    """What is said of a file, the verdict, and the status."""
    asked = _asked(file, command)
    if isinstance(asked, command_line.Result):
        return asked.said, None, asked.status
    status, said = call(*asked[1:])
    if status == 0 and command == "faces":
        # The faces are asked for again when they are drawn; here is what else is shown.
        asked = asked._replace(words="minimal")
        status, said = call(*asked[1:])
    result = _answered(asked, status, said)
    verdict = None if status else verdict_of(said, function_of(said).f)
    return _with_name(asked.name, result.said), verdict, status


def _answered(asked: command_line.Asked, status: int, said: str) -> command_line.Result:
    chosen = argparse.Namespace(command=asked.words.split(" ")[0], violations=1)
    return command_line.answered(chosen, asked, status, said)


def _asked(file: str, command: str) -> "command_line.Asked | command_line.Result":
    return command_line.questions(argparse.Namespace(command=command, files=[file]))[0]


def _with_name(name: str, said: str) -> str:
    return said if said.startswith(name) else f"{name}: {said}"


def _report_on(chosen: argparse.Namespace) -> int:
    entries: List[_report.Entry] = []
    worst = 0
    for file in chosen.files or ["-"]:
        entry, status = _entry_of(file)
        print(_with_name(entry.name, entry.said), flush=True)
        entries.append(entry)
        worst = max(worst, status)
    if all(entry.function is None for entry in entries):
        print(f"{chosen.output}: no file has a function, and no report was written")
        return worst
    page = _report.page_of(entries, _build.build(), not _build.RECORD.exists())
    _files.write(chosen.output, page.encode(), chosen.force)
    count = len(entries)
    print(f"{chosen.output}: a report on {count} file{'s'[: count > 1]}")
    return worst


def _entry_of(file: str) -> Tuple[_report.Entry, int]:
    asked = _asked(file, "extreme")
    if isinstance(asked, command_line.Result):
        return _report.Entry(file, asked.said), asked.status
    status, said = call(*asked[1:])
    result = _answered(asked, status, said)
    words = result.said.replace("which --proof shows", "which the proof has")
    if status:
        return _report.Entry(asked.name, result.said), status
    function = function_of(said)
    verdict = verdict_of(said, function.f)
    judged = call("check", said).text.strip()
    return _report.Entry(asked.name, words, function, verdict, judged), 0
