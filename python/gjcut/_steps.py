"""Texts of derivations, made of lines with steps; and what the program makes of drafts."""
import collections
import re
from fractions import Fraction
from typing import Counter, Dict, Iterable, Iterator, List, Mapping, NamedTuple, Optional
from typing import Sequence, Set, Union

from ._asked import refused
from ._functions import line, printed
from ._library import call
from ._lines import Entries, Line, Range, Step
from ._refusals import NAME

# The limits of a text.
MOST_LINES, MOST_ENTRIES = 10_000, 100_000
# So many lines at most the steps of one text have, so that it is not too long.
MOST_SIZE = 100_000
TITLE = "gj-derivation 1\n"


class Names:
    """Names that texts take, each once."""

    def __init__(self) -> None:
        self._taken: Set[str] = set()
        self._counts: Counter[str] = collections.Counter()

    def new(self, wanted: str) -> str:
        """The wanted name, or one like it."""
        base = re.sub(r"[^!#-~]", "_", wanted)[:200] or "_"
        name = wanted if NAME.fullmatch(wanted) else base
        if name in self._taken:
            return self.next(f"{base}~")
        self._taken.add(name)
        return name

    def next(self, stem: str) -> str:
        """The stem, with the next number."""
        while True:
            self._counts[stem] += 1
            name = f"{stem}{self._counts[stem]}"
            if name not in self._taken:
                self._taken.add(name)
                return name


class Program(NamedTuple):
    """The names of the columns in texts, and their bounds."""

    names: Sequence[str]
    ranges: Sequence[Range]


class Draft(NamedTuple):
    """A step that may lack the right side of its claim, or all of it."""

    name: str
    step: Step
    entries: Optional[Entries] = None
    right: Optional[Fraction] = None


class Found(NamedTuple):
    """What a draft shows, or why it shows nothing, as `integral` or `free`."""

    entries: Entries
    right: Optional[Fraction]
    refused: Optional[str] = None


def columns_of(lines: Iterable[Union[Line, Draft]]) -> List[int]:
    return sorted({column for each in lines for column in each.entries or ()})


def problem_lines(program: Program, columns: Iterable[int], lines: Iterable[Line]) -> Iterator[str]:
    """The columns, and the lines as constraints."""
    for column in columns:
        is_whole, *bounds = program.ranges[column]
        words = ("-" if bound is None else bound for bound in bounds)
        kind = "whole" if is_whole else "continuous"
        yield line("column", program.names[column], kind, *words)
    for each in lines:
        yield line("constraint", each.name, each.sense, each.right)
        for column, value in sorted(each.entries.items()):
            yield line("entry", program.names[column], value)


def made_lines(program: Program, name: str, step: Step) -> Iterator[str]:
    """What a step is made of."""
    yield line("step", name, step.rule)
    for other, multiplier in step.multipliers.items():
        yield line("by", other, multiplier)
    for column in step.at_upper:
        yield line("upper", program.names[column])
    if step.factor != 1:
        yield line("times", step.factor)


def step_lines(program: Program, each: Draft) -> Iterator[str]:
    """A step with its claim, as far as it has one."""
    yield from made_lines(program, each.name, each.step)
    if each.entries is not None:
        yield line("claim", "-" if each.right is None else each.right)
        for column, value in sorted(each.entries.items()):
            yield line("term", program.names[column], value)


def needed_for(last: Line, lines: Mapping[str, Line]) -> List[Line]:
    """The steps that the last line rests on, and the constraints, in their order; and itself."""
    kept, waiting = {last.name}, [last]
    while waiting:
        step = waiting.pop().step
        for name in step.multipliers if step else ():
            if name not in kept:
                kept.add(name)
                waiting.append(lines[name])
    return [each for name, each in lines.items() if name in kept and name != last.name] + [last]


def derivation(
    program: Program, constraints: Sequence[Line], steps: Sequence[Line], heading: Iterable[str]
) -> str:
    """The text of a derivation, with all constraints if there are not too many, and else with those
    that the steps name."""
    columns = range(len(program.names))
    entries = sum(len(each.entries) for each in constraints)
    if len(columns) > MOST_LINES or len(constraints) > MOST_LINES or entries > MOST_ENTRIES:
        named = {name for each in steps for name in each.step.multipliers}
        constraints = [each for each in constraints if each.name in named]
        columns = columns_of([*constraints, *steps])
    parts = [TITLE, *(line("#", each) for each in heading)]
    parts += problem_lines(program, columns, constraints)
    for each in steps:
        parts += step_lines(program, Draft(each.name, each.step, each.entries, each.right))
    return "".join([*parts, "end\n"])


# ---- the command `derive`


def derived(
    program: Program, lines: Mapping[str, Line], drafts: Iterable[Draft], front: str = ""
) -> Dict[str, Found]:
    """What the drafts show, each by its name, of lines that are known. As few texts are made as the
    limits allow."""
    found: Dict[str, Found] = {}
    for part in _parts(lines, drafts, found):
        found.update(_asked(program, lines, part, front))
    return found


def _parts(
    lines: Mapping[str, Line], drafts: Iterable[Draft], found: Dict[str, Found]
) -> Iterator[List[Draft]]:
    """The drafts in parts that fit the limits; one that fits none is refused."""
    part: List[Draft] = []
    used: Set[str] = set()
    columns: Set[int] = set()
    entries = size = 0
    for draft in drafts:
        step, new = draft.step, draft.step.multipliers.keys() - used
        count = sum(len(lines[each].entries) for each in new)
        size += len(step.multipliers) + len(step.at_upper) + len(draft.entries or ())
        columns.update(j for each in new for j in lines[each].entries)
        is_full = entries + count > MOST_ENTRIES or len(columns) > MOST_LINES or size > MOST_SIZE
        if is_full and part:
            yield part
            part, used, entries, size = [], set(), 0, 0
            columns = {j for each in step.multipliers for j in lines[each].entries}
            count = sum(len(lines[each].entries) for each in step.multipliers)
        if count > MOST_ENTRIES or len(columns) > MOST_LINES:
            found[draft.name] = Found({}, None, "large")
            continue
        part.append(draft)
        used.update(step.multipliers)
        entries += count
    if part:
        yield part


def _asked(
    program: Program, lines: Mapping[str, Line], drafts: Sequence[Draft], front: str
) -> Dict[str, Found]:
    used = {name: lines[name] for each in drafts for name in each.step.multipliers}
    columns = columns_of([*used.values(), *drafts])
    parts = [front, TITLE, *problem_lines(program, columns, used.values())]
    for each in drafts:
        parts += step_lines(program, each)
    text = "".join([*parts, "end\n"])
    answer = call("derive", text)
    if answer.status:
        raise refused("derive", text, answer)
    return _read(program, {each.name for each in drafts}, answer.text)


def _read(program: Program, drafts: Set[str], said: str) -> Dict[str, Found]:
    places = {name: column for column, name in enumerate(program.names)}
    found: Dict[str, Found] = {}
    entries: Entries = {}
    name = ""
    for kind, *words in map(str.split, said.splitlines()):
        if kind == "step":
            name = words[0]
        elif kind == "claim":
            entries = {}
            found[name] = Found(entries, printed(words[0]))
        elif kind == "term":
            entries[places[words[0]]] = printed(words[1])
        elif kind == "#" and words[0] in drafts:
            found[words[0]] = Found({}, None, words[1])
    return found
