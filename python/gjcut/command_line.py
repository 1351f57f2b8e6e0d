"""The commands of `python3 -m gjcut`, for people at a terminal."""
import argparse
import collections
import itertools
import re
import sys
import textwrap
from typing import Dict, List, NamedTuple, Optional, Tuple

from . import _build
from ._arguments import items, text as text_of
from ._explain_derivation import DerivationReader, last_claim, sum_in_words
from ._functions import printed
from ._library import LibraryMissing, call, find
from ._verdicts import function_of as function_of_proof, lines_of_function
from ._violations import violations_of
from .explain import CLAIMS, explained, function_in_words, function_of, skipped_in_words
from .explain import sum_skipped_in_words, violation_in_words
from .sentences import cause_in_words, is_derivation, line_at_fault, rule_in_words, told

# The status of a file that cannot be read, and where there is no library.
NO_FILE, NO_LIBRARY = 4, 14
# The commands, each with the names of its numbers and a line of help.
COMMANDS: Dict[str, Tuple[Tuple[str, ...], str]] = {
    "minimal": ((), "whether a function is minimal"),
    "extreme": ((), "whether a function is extreme"),
    "check": ((), "whether a proof text or a derivation is right"),
    "explain": ((), "what a proof text or a derivation shows, line by line"),
    "cut": ((), "the cuts of tableau rows"),
    "mixed": ((), "the cuts of rows; columns whose names begin with c: are continuous"),
    "problem": ((), "the cuts of a mixed-integer program, by multipliers of its constraints"),
    "derive": ((), "the claims of a derivation, filled in"),
    "show": ((), "a function by its values at all multiples of 1/q"),
    "faces": ((), "the maximal additive faces, the covered and the uncovered intervals"),
    "fill": ((), "the two-slope fill-in of a continuous function"),
    "group": ((), "whether the table of the function's own order is extreme"),
    "mirror": ((), "the function of -x"),
    "times": (("N", "J"), "the function of N x, with the place (f + J)/N"),
    "restrict": (("D",), "the function with the values at the multiples of 1/D"),
    "demo": (("N",), "a decision on a function of the program's own"),
}
WITH_JSON = ("minimal", "extreme", "show")
# The program has the flag `--jumps` for these, which changes nothing of a continuous function.
WITH_JUMPS = ("extreme", "faces")
WITH_VIOLATIONS = ("minimal", "extreme")
WITH_PROOF = ("minimal", "extreme", "cut", "mixed", "problem", "derive", "group", "check")


class Result(NamedTuple):
    """What is printed of one file, a word for the count of many, and the status."""

    said: str
    kind: str
    status: int


class Asked(NamedTuple):
    """What a file is called, the words of the program, and the whole input."""

    name: str
    words: str
    text: bytes


def parser() -> argparse.ArgumentParser:
    made = argparse.ArgumentParser(
        prog="python3 -m gjcut",
        description="Verdicts on cut-generating functions, and their cuts. The answers are the "
        "program's, which are proved; the words around them are not.",
        epilog="FILE is a text of docs/formats.md; without one, standard input is read. The status "
        "is the greatest of the statuses of the files: 0 for a verdict, 1 for a rejected proof, 3 "
        "for a text that is refused, 4 for a file that cannot be read, 14 where there is no "
        "library; the others are those of docs/formats.md.",
    )
    version = "the version, the commit, the kit, and the file of the library"
    made.add_argument("--version", action="store_true", help=version)
    commands = made.add_subparsers(dest="command", metavar="COMMAND")
    for name, (numbers, help_) in COMMANDS.items():
        description = f"{help_[0].upper()}{help_[1:]}."
        command = commands.add_parser(name, help=help_, description=description)
        for number in numbers:
            command.add_argument(number)
        if name in WITH_PROOF:
            proof = "print the text that the program writes, in place of a sentence"
            command.add_argument("--proof", action="store_true", help=proof)
        if name in WITH_VIOLATIONS:
            more = "show up to so many violations of a function that is not minimal"
            command.add_argument(
                "--violations", metavar="COUNT", type=_count, default=1, help=more
            )
        if name in WITH_JSON:
            json = "the files are in JSON, and so is what is written"
            command.add_argument("--json", action="store_true", help=json)
        if name in ("cut", "mixed"):
            rule = "`gmic`, or the file of a function, where it does not stand before the tableau"
            command.add_argument("--rule", metavar="RULE", help=rule)
        if name != "demo":
            command.add_argument("files", metavar="FILE", nargs="*")
        progress = "show how far it is, also where standard error is no terminal"
        command.add_argument("--progress", action="store_true", help=progress)
    for others in (_picture_commands(), _model_command()):
        others.add_parsers(commands)
    return made


def _picture_commands():
    """The commands that make pictures, which call back into this module."""
    from . import _picture_commands

    return _picture_commands


def _model_command():
    """The command for models."""
    from . import _model_command

    return _model_command


def _count(word: str) -> int:
    """A number of at least 1."""
    if not re.fullmatch("0*[1-9][0-9]{0,8}", word):
        raise argparse.ArgumentTypeError(f"{word} is no whole number from 1 on")
    return int(word)


def main(words: Optional[List[str]] = None) -> int:
    if words is not None:
        given = items(words, "a list of words", "words")
        words = [text_of(word, "words", i) for i, word in enumerate(given)]
    chosen = parser().parse_args(words)
    try:
        if chosen.version:
            return _version()
        if not chosen.command:
            parser().print_help()
            return 2
        find()
        if chosen.command == "cuts":
            return _model_command().run(chosen)
        if chosen.command not in COMMANDS:
            return _picture_commands().run(chosen)
        return _answer_all(chosen)
    except LibraryMissing as missing:
        print(f"gjcut: {missing}", file=sys.stderr)
        return NO_LIBRARY
    except BrokenPipeError:
        sys.stderr.close()
        return 5


def _version() -> int:
    built = _build.build()
    clone = "" if _build.RECORD.exists() else " (of this clone; the library may be older)"
    print(f"gjcut {built['version']}\ncommit {built['commit']}{clone}\nkit {built['kit']}")
    try:
        print(f"library {find()}")
    except LibraryMissing as missing:
        print(f"library none: {missing}")
    return 0


def _answer_all(chosen: argparse.Namespace) -> int:
    front = _front(getattr(chosen, "rule", None))
    if isinstance(front, Result):
        print(front.said)
        return front.status
    files, worst, kinds = getattr(chosen, "files", []) or ["-"], 0, collections.Counter()
    shows = len(files) > 1 and (chosen.progress or sys.stderr.isatty())
    for i, file in enumerate(files):
        if shows:
            print(f"\r{i} of {len(files)} files", end="", file=sys.stderr, flush=True)
        result = _answer_one(chosen, file, front)
        if shows:
            print("\r" + " " * 40 + "\r", end="", file=sys.stderr, flush=True)
        said = result.said.rstrip("\n")
        if len(files) > 1 and not said.startswith(file):
            said = f"{file}:" + ("\n" if "\n" in said else " ") + said
        print(said, flush=shows)
        worst, kinds[result.kind] = max(worst, result.status), kinds[result.kind] + 1
    if len(files) > 1:
        counts = ", ".join(f"{count} {kind}" for kind, count in kinds.most_common())
        print(f"{len(files)} files: {counts}")
    return worst


def _read(file: str) -> "bytes | Result":
    if file == "-":
        return b"" if sys.stdin is None else sys.stdin.buffer.read()
    try:
        with open(file, "rb") as source:
            return source.read()
    except OSError as error:
        return Result(f"{file}: it cannot be read: {error.strerror}", "not read", NO_FILE)


def _front(rule: Optional[str]) -> "bytes | Result":
    """What stands before a tableau."""
    if rule is None:
        return b""
    if rule == "gmic":
        return b"gj-rule 1\ngmic\nend\n"
    text = _read(rule)
    return text if isinstance(text, Result) or text.endswith(b"\n") else text + b"\n"


def _answer_one(chosen: argparse.Namespace, file: str, front: bytes) -> Result:
    asked = _asked(chosen, file, front)
    return asked if isinstance(asked, Result) else answered(chosen, asked, *call(*asked[1:]))


def questions(chosen: argparse.Namespace) -> "List[Asked | Result]":
    """What is asked about each file, or why one cannot be read."""
    front = _front(getattr(chosen, "rule", None))
    if isinstance(front, Result):
        return [front]
    return [_asked(chosen, file, front) for file in getattr(chosen, "files", []) or ["-"]]


def _asked(chosen: argparse.Namespace, file: str, front: bytes) -> "Asked | Result":
    data = b"" if chosen.command == "demo" else _read(file)
    if isinstance(data, Result):
        return data
    command = "check" if chosen.command == "explain" else chosen.command
    words = [command, *(getattr(chosen, number) for number in COMMANDS[chosen.command][0])]
    words += ["--json"] * getattr(chosen, "json", False)
    words += ["--jumps"] * (command in WITH_JUMPS)
    return Asked("standard input" if file == "-" else file, " ".join(words), front + data)


def answered(chosen: argparse.Namespace, asked: Asked, status: int, said: str) -> Result:
    """The sentence about what the program writes, or that itself."""
    text = asked.text.decode("utf-8", "replace")
    if status not in (0, 1):
        return _refused(asked.words, text, status, said.rstrip("\n"), asked.name)
    if chosen.command == "explain":
        return _explained(text, status, said)
    is_text = getattr(chosen, "proof", False) or getattr(chosen, "json", False)
    shown = said if is_text else _sentence(chosen, text, status, said)
    return Result(shown, _kind(chosen.command, said), status)


def _kind(command: str, said: str) -> str:
    found = re.search(r"^(?:claim|verdict|accepted|rejected) ?(\S*)", said, re.M)
    if command in ("check", "explain"):
        return said.split()[0]
    is_verdict = found and command in ("minimal", "extreme", "group")
    return found[1].replace("-", " ") if is_verdict else "answered"


def _sentence(chosen: argparse.Namespace, text: str, status: int, said: str) -> str:
    command = chosen.command
    if command == "check":
        return _judged(text, status, said)
    if command in WITH_VIOLATIONS:
        return _verdict(text, said, chosen.violations)
    if command in ("cut", "mixed"):
        return "\n".join(_cuts(said))
    if command == "problem":
        is_exact = not re.search(r"^\s*round\s", text, re.M)
        hint = ["  Try a line `round 1048576` in the problem, which keeps most numbers short."]
        return "\n".join(_cuts_of_problem(said) + hint * (is_exact and "\nskip wide\n" in said))
    if command == "derive":
        return _judged(text, status, said) if status else "\n".join(_derived(said))
    return _group(text, said) if command == "group" else said


def _verdict(text: str, proof: str, violations: int) -> str:
    lines = proof.splitlines()
    claim, function = lines[1].split(" ")[1], function_of(proof)
    if claim == "minimal":
        return (
            "minimal: the function is 0 at 0, nowhere negative, subadditive, and symmetric about "
            f"f = {function.f}"
        )
    if claim == "not-minimal":
        kind, *at = lines[-2].split(" ")
        said = "not minimal: " + violation_in_words(function, kind, *map(printed, at))
        if violations > 1:
            more = itertools.islice(violations_of(function, lines_of_function(proof)), violations)
            parts = [[part for part in each if part is not None] for each in more]
            shown = [violation_in_words(function, *each) for each in parts]
            said = "\n  ".join([f"not minimal, by {len(shown)} violations:", *shown])
        hint = told("minimal", text, 0, lines[-2])
        return f"{said}\n  {_said(hint)}" if hint else said
    if claim == "extreme":
        return "extreme: the function is minimal, and no average of two other valid functions"
    order = re.search(r"^halves (\d+)", proof, re.M)[1]
    numbers = "values" if function.is_continuous else "values and limits"
    return (
        "not extreme: the function is minimal, and the average of two different minimal functions, "
        f"which --proof shows by their {numbers} at the multiples of 1/{order}"
    )


def _group(text: str, said: str) -> str:
    lines = said.splitlines()
    order, verdict = lines[1].split(" ")[1], lines[3].split(" ")[1]
    table = f"the table of the function at the multiples of 1/{order}"
    if verdict == "not-minimal":
        kind, *at = lines[4].split(" ")
        where = f" ({kind} at {' and '.join(at)})" if at else ""
        return f"not minimal: {table} is not minimal{where}"
    if verdict == "extreme":
        return f"extreme: {table} is minimal, and no average of two different minimal tables"
    average = "the average of two different minimal tables, which --proof shows"
    return f"not extreme: {table} is minimal, and {average}"


def _judged(text: str, status: int, said: str) -> str:
    words, is_of_steps = said.split(), is_derivation(text)
    function = None if is_of_steps else function_of_proof(text)
    which = f"\n  the function: {function_in_words(function)}" if function else ""
    if not status and is_of_steps:
        name, claim = last_claim(text)
        which = f"\n  the last step, {name}: {claim}" if name else ""
    if not status:
        return f"accepted: {CLAIMS[words[1]]}{which}"
    _, line, _ = line_at_fault(text, said)
    why = cause_in_words(words[3:]) if is_of_steps else rule_in_words(words[3], text)
    return f"rejected: line {words[2]}, `{line}`: {why}{which}"


def _cuts(said: str) -> List[str]:
    found: List[List[str]] = []
    for kind, *words in map(str.split, said.splitlines()):
        if kind == "skip":
            found.append([f"{words[0]}: no cut, since {skipped_in_words(words[1], words[2])}"])
        elif kind == "cut":
            found.append([f"{words[0]}: "])
        elif kind in ("term", "weight"):
            sign = "" if len(found[-1]) == 1 else " + "
            found[-1].append(f"{sign}{words[2]} {words[0]}")
    return ["".join(each) + _end_of_cut(each) for each in found]


def _end_of_cut(parts: List[str]) -> str:
    if len(parts) > 1:
        return " >= 1"
    return "" if "no cut" in parts[0] else "0 >= 1: the row has no solution"


def _cuts_of_problem(said: str) -> List[str]:
    """A line for each sum, in their order."""
    found: List[Tuple[Optional[str], List[Tuple[str, str]], str]] = []
    for kind, *words in map(str.split, said.splitlines()):
        if kind == "skip":
            found.append((None, [], f"no cut, since {sum_skipped_in_words(*words)}"))
        elif kind == "cut":
            found.append((words[0], [], ""))
        elif kind == "term":
            found[-1][1].append((words[0], words[1]))
    shown = [why if right is None else _inequality(terms, right) for right, terms, why in found]
    lines = [f"sum {i}: {each}" for i, each in enumerate(shown, 1)]
    return lines or ["no cut, since the problem has no line `sum`"]


def _derived(said: str) -> List[str]:
    """A line for each step, in their order."""
    found: List[str] = []
    steps = DerivationReader(said).known
    for kind, *words in filter(None, map(str.split, said.splitlines())):
        if kind == "step":
            found.append(f"step {words[0]}: at each feasible point {steps[words[0]]}")
        elif kind == "#":
            found.append(f"step {words[0]}: left out, since {cause_in_words(words[1:])}")
    return found or ["the derivation has no step"]


def _inequality(terms: List[Tuple[str, str]], right: str) -> str:
    if terms:
        return f"at each feasible point {sum_in_words(terms)} >= {right}"
    if printed(right) > 0:
        return f"no point is feasible: there 0 >= {right}"
    return f"the cut says nothing: 0 >= {right}"


def _explained(text: str, status: int, said: str) -> Result:
    shown = [_judged(text, status, said)]
    pairs = list(explained(text))
    width = min(max(len(line) for line, _ in pairs), 32)
    for i, (line, words) in enumerate(pairs, 1):
        shown.append(f"{i:5}  {line:{width}}  {words}".rstrip())
    return Result("\n".join(shown), said.split()[0], status)


def _said(parts: Tuple[str, str]) -> str:
    means, do = (words[0].upper() + words[1:] for words in parts)
    return f"{means}. {do}."


def _refused(words: str, text: str, status: int, said: str, name: str) -> Result:
    parts = told(words, text, status, said)
    found = re.fullmatch(r"refused (line|record) (\d+) (\S+)", said)
    if found:
        _, line, _ = line_at_fault(text, said)
        shown = [f"{name}, {found[1]} {found[2]}: refused, {found[3]}"]
        # A file of another kind can have signs that a terminal obeys.
        seen = "".join(sign if sign.isprintable() or sign == "\t" else "\ufffd" for sign in line)
        shown += [f"    {seen[:200]}"] if line.strip() else []
    else:
        shown = [f"{name}: {said or f'status {status}'}"]
    if parts:
        how = {"initial_indent": "  ", "subsequent_indent": "  ", "break_on_hyphens": False}
        shown += textwrap.wrap(_said(parts), 98, break_long_words=False, **how)
    return Result("\n".join(shown), "refused" if status == 3 else "without answer", status)
