"""Pictures of functions, verdicts and additive faces, by matplotlib.

What is drawn are answers of the program: the function, its components and faces, a violation, two
halves. Nothing is decided here.
"""
import colorsys
import contextlib
import io
import textwrap
from fractions import Fraction
from pathlib import Path
from typing import Callable, Dict, Iterable, List, NamedTuple, Optional, Sequence, Tuple, Union

from . import _files
from ._arguments import whole, wrong
from ._asked import FACES, of_function
from ._diagram import Component, Diagram, Piece, components_of, diagram_of, pieces_of, slopes_of
from ._functions import Function
from ._library import LibraryMissing
from ._optional import PackageMissing, needed
from ._refusals import Refused
from ._verdicts import Verdict, Violation, function_of

# What is drawn in ink, softer, and softest; the inside of an open dot; what is at fault.
INK, SOFT, FAINT, PAPER, ALERT = "#1a1a1a", "#b4b4b4", "#e6e6e6", "#fefefe", "#c1121f"
# Components from 0 on, apart for colour-blind eyes too; more have colours by their numbers.
COLOURS = ("#0b6bb0", "#d1571a", "#0f8a62", "#a8468f", "#b58900", "#5b5bd6", "#8c564b")
# The kinds of files, each without the date, so that one function has one file.
DATES = {"svg": {"Date": None}, "png": {"Software": None}, "pdf": {"CreationDate": None}}
# Sizes in inches, of text in points, and of a digit in parts of that.
WIDTH, SMALL, LABEL, DIGIT = 5.0, 7.5, 9.0, 0.64
POINTS, LEAST = 72, 0.05
# More of these are drawn as dots of a picture, also where the file has lines.
MOST_CORNERS, MOST_MARKS = 20_000, 1_000
# No label has more digits over or under a bar, or letters in a line, and no legend more components.
MOST_DIGITS, MOST_LETTERS, MOST_COMPONENTS = 5, 9, 6
# More lines of the complex would be one grey; more polygons and edges have thin lines.
MOST_LINES, MOST_GRID_LINES, MANY = 60, 24, 200

# A dashed line, as that of a half where it lies on the other one.
DASHES = (0, (3, 2.5))

Shown = Union[Function, Verdict]
Line = Union[str, Tuple[float, Tuple[float, float]]]


class Picture:
    """A picture, which a notebook shows. `figure` is that of matplotlib, for changes."""

    def __init__(self, figure, words: str):
        self.figure, self._words = figure, words

    def __repr__(self) -> str:
        return f"<picture: {self._words}>"

    def save(self, name: Union[str, Path], force: bool = False) -> None:
        """Writes a file, whose name ends with .svg, .png or .pdf. A file that is there already
        raises `FileExistsError`, but for `force`."""
        _files.write(name, self.bytes(suffix_of(name)[1:]), force)

    def bytes(self, kind: str, dots: int = 200) -> bytes:
        """The picture as an "svg", "png" or "pdf"; a png has so many dots an inch."""
        if kind not in DATES:
            raise ValueError(f"kind: {kind!r} is none of {', '.join(DATES)}")
        made = io.BytesIO()
        with _style():
            self.figure.savefig(
                made, format=kind, dpi=whole(dots, "dots"), metadata=DATES[kind]
            )
        return made.getvalue()

    def _repr_svg_(self) -> str:
        return self.bytes("svg").decode()

    def _repr_png_(self) -> bytes:
        return self.bytes("png", dots=110)


def suffix_of(name: Union[str, Path]) -> str:
    """The end of the name of a picture."""
    if not isinstance(name, (str, Path)):
        raise wrong(name, "the name of a file", "name")
    suffix = Path(name).suffix.lower()
    if suffix[1:] not in DATES:
        raise ValueError(f"name: {str(name)!r} ends with none of .{', .'.join(DATES)}")
    return suffix


def plot(shown: Shown, figure=None, width: float = WIDTH) -> Picture:
    """The graph of a function, from 0 to 1, with the colours of its components.

    Limits that are no values are open dots. Of a verdict `not-minimal` the graph has the violation
    too, and of `not-extreme` the two halves, with their difference below. It is drawn into a
    figure or a part of a figure of matplotlib, if one is given, and else into one of this width in
    inches.

        gjcut.plot(gjcut.family("gmic", "3/5")).save("gmic.svg")
    """
    function, verdict = _function_and_verdict(shown)
    _take_figure(figure, width)
    with _style():
        if verdict is not None and verdict.halves:
            return _draw_halves(function, verdict, figure, width)
        return _draw_graph(function, verdict, figure, width)


def plot_faces(shown: Shown, figure=None, width: float = WIDTH) -> Picture:
    """The diagram of the additive faces of a function, or of that of a verdict.

    In the square of all x and y stand the maximal additive triangles, edges and points, with the
    colours of the components; at its borders the projections of the triangles, by x above, by y on
    the left, and by x + y below and on the right; and outside of these the graph, twice. The
    complex is grey. If the function jumps a face is additive on its inside, and dashed edges join
    intervals only by the limits from a triangle beside them. If the verdict says where a function
    is not subadditive, a point shows it. Figure and width are as for `plot`.

        gjcut.plot_faces(gjcut.family("gmic", "3/5")).save("faces.svg")
    """
    function, verdict = _function_and_verdict(shown)
    _take_figure(figure, width)
    text = of_function(FACES, function)
    with _style():
        return _draw_faces(function, text, verdict, figure, width)


def png_of(shown: Shown) -> Optional[bytes]:
    """What a notebook shows; nothing, where there is no matplotlib."""
    return _shown(shown, Picture._repr_png_)


def svg_of(shown: Shown) -> Optional[str]:
    """As `png_of`, by lines."""
    return _shown(shown, Picture._repr_svg_)


def _shown(shown: Shown, way: Callable) -> "str | bytes | None":
    try:
        return way(plot(shown))
    except (PackageMissing, LibraryMissing):
        return None


def _function_and_verdict(shown: Shown) -> Tuple[Function, Optional[Verdict]]:
    if isinstance(shown, Verdict):
        return function_of(shown.text), shown
    if not isinstance(shown, Function):
        raise wrong(shown, "a Function or a Verdict", "shown")
    return shown, None


def _take_figure(figure, width: float) -> None:
    """Asks for matplotlib, and of what is drawn into, that it is what it should be."""
    figures = _module("figure")
    if figure is not None and not isinstance(figure, figures.FigureBase):
        raise wrong(figure, "a Figure or a SubFigure of matplotlib", "figure")
    if isinstance(width, bool) or not isinstance(width, (int, float)):
        raise wrong(width, "a width in inches", "width")
    if not 2 <= width <= 40:
        raise ValueError(f"width: {width} is not from 2 to 40 inches")


def _module(name: str):
    """A module of matplotlib."""
    needed("matplotlib", "pictures", "python3-matplotlib")
    return needed(f"matplotlib.{name}", "pictures", "python3-matplotlib")


@contextlib.contextmanager
def _style():
    """The settings of matplotlib, whatever those of the caller are."""
    matplotlib = needed("matplotlib", "pictures", "python3-matplotlib")
    with matplotlib.rc_context():
        matplotlib.rcdefaults()
        matplotlib.rcParams.update(
            {
                "font.family": "DejaVu Sans",
                "font.size": LABEL,
                "mathtext.fontset": "dejavusans",
                "svg.hashsalt": "gjcut",
                "axes.edgecolor": INK,
                "axes.linewidth": 0.7,
                "text.color": INK,
                "xtick.color": INK,
                "ytick.color": INK,
                "figure.facecolor": "none",
                "axes.facecolor": "none",
                "savefig.facecolor": "auto",
            }
        )
        yield


class _Sheet:
    """A figure, with axes at places in inches."""

    def __init__(self, figure, width: float, height: float):
        if figure is None:
            figure = _module("figure").Figure(figsize=(width, height))
        self.figure = figure
        # A part of a figure has no size in inches of its own.
        box, dots = figure.bbox, figure.dpi
        self.width, self.height = box.width / dots, box.height / dots

    def axes(self, left: float, bottom: float, width: float, height: float):
        x, y = self.width, self.height
        if min(width, height) < LEAST:
            raise ValueError("figure: it has no room for this picture")
        made = self.figure.add_axes([left / x, bottom / y, width / x, height / y])
        made.set_axisbelow(True)
        return made

    def picture(self, words: str, function: Function) -> Picture:
        return Picture(self.figure.figure, f"{words}, f = {function.f}, order {function.order}")


# ---- colours, labels and legends ----


def colour_of(component: Component) -> str:
    """The colour of a component, and of what is uncovered."""
    if component is None:
        return INK
    if component < len(COLOURS):
        return COLOURS[component]
    # Hues that go round by the golden section stay apart.
    hue = component * 0.6180339887 % 1
    parts = colorsys.hls_to_rgb(hue, 0.35 + 0.2 * (component % 3) / 2, 0.6)
    return "#" + "".join(f"{round(255 * part):02x}" for part in parts)


def _components(function: Function) -> List[Component]:
    """The component of each interval; no list, where the program gives no faces."""
    try:
        return components_of(of_function(FACES, function))
    except Refused:
        return []


class _Entry(NamedTuple):
    """A line of a legend: a mark, a colour and words."""

    label: str
    colour: str
    line: Line = "-"
    mark: str = ""
    width: float = 2.0


def _entries_of(pieces: Sequence[Piece]) -> List[_Entry]:
    slopes = slopes_of(pieces)
    numbers = sorted(c for c in slopes if c is not None)
    entries = [
        _Entry(f"component {c}: slope {_flat(slopes[c])}", colour_of(c))
        for c in numbers[:MOST_COMPONENTS]
    ]
    if len(numbers) > MOST_COMPONENTS:
        more = len(numbers) - MOST_COMPONENTS
        entries.append(_Entry(f"{more} more component{'s'[: more > 1]}", INK, line=""))
    if None in slopes:
        entries.append(_Entry("uncovered", INK))
    return entries


class _Legend(NamedTuple):
    """Entries below a picture, so many of them side by side, and how high they are in inches."""

    entries: Tuple[_Entry, ...]
    columns: int
    height: float


def _legend_of(entries: Sequence[_Entry], width: float) -> _Legend:
    """The entries for a picture of this width. Those that are too long take several lines."""
    letters = width * POINTS / SMALL
    widths = [0.54 * len(entry.label) + 3.4 for entry in entries]
    columns = len(entries) if sum(widths) <= letters - 1 else int(letters / max(widths)) or 1
    wrapped = [textwrap.wrap(entry.label, int((letters - 3.4) / 0.54)) for entry in entries]
    fitted = [entry._replace(label="\n".join(lines)) for entry, lines in zip(entries, wrapped)]
    rows = sum(map(len, wrapped)) if columns == 1 else -(-len(entries) // (columns or 1))
    return _Legend(tuple(fitted), columns, rows * 1.65 * SMALL / POINTS)


def _add_legend(sheet: _Sheet, legend: _Legend) -> None:
    if not legend.entries:
        return
    lines = _module("lines")
    handles = [
        lines.Line2D(
            [], [], color=entry.colour, linestyle=entry.line or "none", marker=entry.mark,
            linewidth=entry.width, markersize=6, markeredgewidth=0, label=entry.label,
        )
        for entry in legend.entries
    ]  # fmt: skip
    sheet.figure.legend(
        handles=handles, loc="lower center", bbox_to_anchor=(0.5, 0.0), frameon=False,
        ncol=legend.columns, fontsize=SMALL, handlelength=1.6, handletextpad=0.6,
        columnspacing=1.4, borderaxespad=0.1, borderpad=0.1, labelspacing=0.35,
    )  # fmt: skip


def _flat(x: Fraction) -> str:
    """A fraction in one line, with a minus as long as a digit."""
    return str(x).replace("-", "\N{MINUS SIGN}")


def _stacked(x: Fraction) -> str:
    """A fraction with a bar."""
    if x.denominator == 1:
        return str(x)
    sign = "-" if x < 0 else ""
    return rf"${sign}\dfrac{{{abs(x.numerator)}}}{{{x.denominator}}}$"


def _digits(x: Fraction) -> int:
    return max(len(str(x.numerator)), len(str(x.denominator)) if x.denominator > 1 else 1)


def _chosen(
    places: Iterable[Fraction], room: Callable[[Fraction], float], first: Sequence[Fraction] = ()
) -> List[Fraction]:
    """The places that have room for their labels: those that come first, and then those with small
    denominators. The room that a label needs is in the same unit as the places."""
    wanted = [*first, *sorted(set(places) - set(first), key=lambda x: (x.denominator, x))]
    chosen: List[Fraction] = []
    for x in wanted:
        if _digits(x) > MOST_DIGITS and x not in first:
            continue
        if all(abs(x - y) >= (room(x) + room(y)) / 2 for y in chosen):
            chosen.append(x)
    return sorted(chosen)


def _label_places(
    axis, function: Function, length: float, is_upright: bool = False, more: Iterable[Fraction] = ()
) -> None:
    """The breakpoints, and more places, at an axis that has this length in inches."""

    def room(x: Fraction) -> float:
        height = 1.4 if x.denominator == 1 else 2.7
        return (height if is_upright else _digits(x) * DIGIT + 0.7) * LABEL / POINTS / length

    places = [*(point.place for point in function.breakpoints), *more]
    chosen = _chosen(places, room, [Fraction(0), Fraction(1), function.f])
    axis.set_ticks(list(map(float, chosen)), [_stacked(x) for x in chosen])
    axis.set_tick_params(length=3, pad=13, labelsize=LABEL)
    for label in axis.get_ticklabels():
        label.set_va("center")
    if len(places) <= MOST_LINES:
        axis.set_ticks(list(map(float, set(places) - set(chosen))), minor=True)
        axis.set_tick_params(which="minor", length=2)


class _Heights(NamedTuple):
    """What an axis upwards goes from and to, and the values that have labels at it."""

    low: float
    high: float
    labels: Tuple[Fraction, ...]

    @property
    def room(self) -> float:
        """How far the labels go to the left, in inches."""
        longest = max(len(str(value)) for value in self.labels)
        return (longest * DIGIT * LABEL + 10) / POINTS


def _heights_of(values: Iterable[Fraction], length: float, least: Sequence[int]) -> _Heights:
    """For an axis of this length in inches, with at least these values too."""
    values = {*values, *map(Fraction, least)}
    low, high = float(min(values)), float(max(values))
    over = 0.04 * (high - low)
    low, high = low - (over if low < 0 else 0), high + over
    room = 1.35 * LABEL / POINTS / length * (high - low)
    first = [Fraction(n) for n in (0, 1) if low <= n <= high]
    short = [value for value in values if len(str(value)) <= MOST_LETTERS]
    return _Heights(low, high, tuple(_chosen(short, lambda _x: room, first)))


def _set_heights(axes, heights: _Heights) -> None:
    axes.set_ylim(heights.low, heights.high)
    axes.set_yticks(list(map(float, heights.labels)), list(map(_flat, heights.labels)))
    axes.tick_params(axis="y", length=3, pad=3, labelsize=LABEL)


def _values_of(function: Function) -> List[Fraction]:
    """All values and limits at breakpoints."""
    return [value for point in function.breakpoints for value in point[1:]]


# ---- the graph ----


# In inches: what stands below a graph and its legend, above it and to the right of it.
FOOT, HEAD, RIGHT = 0.56, 0.3, 0.18


def _draw_graph(function: Function, verdict: Optional[Verdict], figure, width: float) -> Picture:
    components = _components(function)
    pieces = pieces_of(function, components)
    violation = None if verdict is None else verdict.violation
    marks = _marks_of(function, violation) if violation else []
    entries = _entries_of(pieces) if components else []
    entries += [_Entry(mark.label, ALERT, line="", mark=mark.mark) for mark in marks]
    sheet = _Sheet(figure, width, 0.52 * width + FOOT + _legend_of(entries, width).height)
    legend = _legend_of(entries, sheet.width)
    foot = FOOT + legend.height
    height = sheet.height - foot - HEAD
    heights = _heights_of(_values_of(function), height, (0, 1))
    axes = sheet.axes(heights.room, foot, sheet.width - heights.room - RIGHT, height)
    _set_heights(axes, heights)
    _frame(axes, function)
    _label_places(axes.xaxis, function, sheet.width - heights.room - RIGHT)
    _mark_f(axes, function)
    _add_pieces(axes, pieces, 1.8)
    _add_dots(axes, function)
    for i, mark in enumerate(marks):
        axes.plot(
            [float(mark.x)], [float(mark.y)], mark.mark, color=ALERT, markersize=7,
            markeredgecolor=PAPER, markeredgewidth=0.5, zorder=6, clip_on=False,
            gid=f"violation-{i}",
        )  # fmt: skip
    _add_legend(sheet, legend)
    return sheet.picture("the graph", function)


def _frame(axes, function: Function) -> None:
    """A graph from 0 to 1, with a line at 0 and one at f."""
    axes.set_xlim(0, 1)
    axes.spines[["top", "right"]].set_visible(False)
    if axes.get_ylim()[0] < 0:
        axes.axhline(0, color=SOFT, linewidth=0.7, zorder=1)
    axes.axvline(float(function.f), color=SOFT, linewidth=0.8, linestyle=DASHES, zorder=1)


def _mark_f(axes, function: Function) -> None:
    axes.annotate(
        "f", (float(function.f), 1), (0, 2), xycoords=axes.get_xaxis_transform(),
        textcoords="offset points", ha="center", va="bottom", fontstyle="italic",
        annotation_clip=False,
    )  # fmt: skip


def _add_pieces(axes, pieces: Sequence[Piece], width: float, turned: bool = False) -> None:
    """The graph; turned, with the places upwards and the values to the left."""
    width = width if len(pieces) <= MANY else 0.7
    collections = _module("collections")
    lines: Dict[Component, List[List[Tuple[float, float]]]] = {}
    for component, corners in pieces:
        line = [(float(y), float(x)) if turned else (float(x), float(y)) for x, y in corners]
        lines.setdefault(component, []).append(line)
    for component, each in lines.items():
        drawn = collections.LineCollection(
            each, colors=colour_of(component), linewidths=width, capstyle="round",
            joinstyle="round", zorder=3, clip_on=False,
            gid=_name("graph-on-the-left" if turned else "graph", component),
        )  # fmt: skip
        axes.add_collection(drawn, autolim=False)


def _name(what: str, component: Component) -> str:
    return f"{what}-{'uncovered' if component is None else component}"


def _add_dots(axes, function: Function, colour: str = INK, of_what: str = "") -> None:
    """Where the function jumps, filled dots at values and open ones at limits."""
    filled, opened = [], []
    for x, left, value, right in function.breakpoints:
        if left == value == right:
            continue
        ends = [x, Fraction(1)] if x == 0 else [x]
        for end in ends:
            filled.append((float(end), float(value)))
            limits = {left, right} if x else {right if end == 0 else left}
            opened += [(float(end), float(limit)) for limit in sorted(limits - {value})]
    size = 4.5 if len(filled) <= 60 else 2.5 if len(filled) <= MANY else 1.2
    for dots, face, name in ((opened, PAPER, "limits"), (filled, colour, "values")):
        if dots:
            axes.plot(
                *zip(*dots), "o", markersize=size, color=colour, markerfacecolor=face,
                markeredgewidth=min(1, size / 4), zorder=5, clip_on=False, gid=name + of_what,
            )  # fmt: skip


def _add_common_values(axes, first: Function, second: Function) -> None:
    """Where both jump and have one value, the dot of neither."""
    jumps = {x for x, *sides in first.breakpoints if len(set(sides)) > 1}
    common = [x for x in jumps if x and first.at(x) == second.at(x)]
    if common:
        axes.plot(
            list(map(float, common)), [float(first.at(x)) for x in common], "o", markersize=4.5,
            color=INK, zorder=5, clip_on=False, gid="values-of-both-halves",
        )  # fmt: skip


class _Mark(NamedTuple):
    """A point of a graph that has a part in a violation."""

    x: Fraction
    y: Fraction
    mark: str
    label: str


def _marks_of(function: Function, violation: Violation) -> List[_Mark]:
    """The points of a violation; the last says what is wrong."""

    def mark(x: Fraction, form: str, wrong: str = "") -> _Mark:
        x, value = x % 1, function.at(x)
        return _Mark(x, value, form, f"π({x}) = {_flat(value)}{wrong}")

    kind, x, y = violation
    if kind == "zero":
        return [mark(Fraction(0), "o", ", not 0")]
    if kind == "negative":
        return [mark(x, "o", ", below 0")]
    y, total = (function.f - x, function.f) if kind == "asymmetric" else (y, x + y)
    value = function.at(x) + function.at(y)
    slack = value - function.at(total)
    first, second = mark(x, "o"), mark(y, "s")
    marks = [first] if first.x == second.x else [first, second]
    if kind == "superadditive":
        return [*marks, mark(total, "D", f": slack {_flat(slack)}")]
    how = "twice that" if len(marks) == 1 else "together"
    last = marks.pop()
    return [*marks, last._replace(label=f"{last.label}: {how} {_flat(value)}, not 1")]


# ---- two halves ----


def _draw_halves(function: Function, verdict: Verdict, figure, width: float) -> Picture:
    first, second = verdict.halves
    difference = first - second
    entries = [
        _Entry("π", SOFT, width=4.0),
        _Entry("first half", COLOURS[0]),
        _Entry("second half", COLOURS[1], line=DASHES),
        _Entry("first half less second", COLOURS[2]),
    ]
    sheet = _Sheet(figure, width, 0.85 * width + FOOT + _legend_of(entries, width).height)
    legend = _legend_of(entries, sheet.width)
    foot = FOOT + legend.height
    height = sheet.height - foot - HEAD
    values = [value for each in (function, first, second) for value in _values_of(each)]
    upper = _heights_of(values, 0.66 * height, (0, 1))._replace(
        labels=_heights_of(_values_of(function), 0.66 * height, (0, 1)).labels
    )
    lower = _heights_of(_values_of(difference), 0.26 * height, (0,))
    room = max(upper.room, lower.room)
    wide = sheet.width - room - RIGHT
    below = sheet.axes(room, foot, wide, 0.26 * height)
    above = sheet.axes(room, foot + 0.34 * height, wide, 0.66 * height)
    jumps = [x for x, *sides in difference.breakpoints if len(set(sides)) > 1]
    for axes, heights in ((above, upper), (below, lower)):
        _set_heights(axes, heights)
        _frame(axes, function)
        _label_places(axes.xaxis, function, wide, more=jumps)
    above.set_xticklabels([])
    _mark_f(above, function)
    _add_line(above, function, SOFT, "-", "function", 4.0)
    for shown, colour, line, name in (
        (first, COLOURS[0], "-", "first-half"), (second, COLOURS[1], DASHES, "second-half")
    ):  # fmt: skip
        _add_line(above, shown, colour, line, name, 1.5)
        _add_dots(above, shown, colour, f"-of-{name}")
    _add_dots(above, function)
    _add_common_values(above, first, second)
    _add_line(below, difference, COLOURS[2], "-", "difference", 1.5)
    _add_dots(below, difference, COLOURS[2], "-of-difference")
    _add_legend(sheet, legend)
    return sheet.picture("two halves", function)


def _add_line(axes, function: Function, colour: str, line: Line, name: str, width: float) -> None:
    collections = _module("collections")
    lines = [
        [(float(x), float(y)) for x, y in piece.corners] for piece in pieces_of(function, [])
    ]
    drawn = collections.LineCollection(
        lines, colors=colour, linewidths=width, linestyles=line, capstyle="round",
        joinstyle="round", zorder=3, clip_on=False, gid=name,
    )  # fmt: skip
    axes.add_collection(drawn, autolim=False)


# ---- the diagram of faces ----

# In inches: how high a graph at a side is, and what stands between the square and it.
GRAPH, BAR, GAP = 0.72, 0.07, 0.05


def _draw_faces(
    function: Function, text: str, verdict: Optional[Verdict], figure, width: float
) -> Picture:
    pieces, diagram = pieces_of(function, components_of(text)), diagram_of(text, function)
    entries = _entries_of(pieces)
    if diagram.limits:
        entries.append(_Entry("joined by limits from a triangle", INK, line=DASHES))
    violation = None if verdict is None else verdict.violation
    point = violation if violation and violation.kind == "superadditive" else None
    if point:
        label = _marks_of(function, point)[-1].label.partition(": ")[2]
        entries.append(_Entry(f"{label} at ({point.x}, {point.y})", ALERT, line="", mark="*"))
    strip = BAR + 2 * GAP
    left, right, top, below = 0.2 + GRAPH + strip, strip + 0.42, 0.25 + GRAPH + strip, strip + 0.48
    height = width - left - right + top + below + _legend_of(entries, width).height
    sheet = _Sheet(figure, width, height)
    legend = _legend_of(entries, sheet.width)
    below += legend.height
    size = min(sheet.width - left - right, sheet.height - top - below)
    left += (sheet.width - left - right - size) / 2
    square = sheet.axes(left, below, size, size)
    square.set_xlim(0, 1)
    square.set_ylim(0, 1)
    square.spines[:].set_color(SOFT)
    _add_complex(square, function, diagram.order)
    _add_diagram(square, diagram)
    _label_places(square.xaxis, function, size)
    _label_places(square.yaxis, function, size, is_upright=True)
    square.yaxis.tick_right()
    square.xaxis.set_tick_params(which="both", length=0, pad=22)
    square.yaxis.set_tick_params(which="both", length=0, pad=12)
    if point:
        square.plot(
            [float(point.x % 1)], [float(point.y % 1)], "*", color=ALERT, markersize=11, zorder=7,
            clip_on=False, gid="violation",
        )  # fmt: skip
    _add_projections(sheet, diagram, left, below, size)
    heights = [float(y) for piece in pieces for _, y in piece.corners]
    low, high = min(*heights, 0.0), max(*heights, 1.0)
    upper = sheet.axes(left, below + size + strip, size, GRAPH)
    lefter = sheet.axes(left - strip - GRAPH, below, GRAPH, size)
    upper.set(xlim=(0, 1), ylim=(low, high))
    lefter.set(ylim=(0, 1), xlim=(high, low))
    for axes, turned in ((upper, False), (lefter, True)):
        axes.axis("off")
        _add_pieces(axes, pieces, 1.2, turned)
    upper.axhline(0, color=SOFT, linewidth=0.6, zorder=1)
    lefter.axvline(0, color=SOFT, linewidth=0.6, zorder=1)
    for line in (upper.axvline, lefter.axhline):
        line(float(function.f), color=SOFT, linewidth=0.8, linestyle=DASHES, zorder=1)
    _mark_f(upper, function)
    _add_legend(sheet, legend)
    return sheet.picture("the additive faces", function)


def _add_complex(axes, function: Function, order: int) -> None:
    """The lines on which x, y or x + y is a breakpoint, and, softer, a multiple of 1/order."""
    collections = _module("collections")
    places = sorted({point.place for point in function.breakpoints} | {function.f})
    grid = [Fraction(i, order) for i in range(order)] if order <= MOST_GRID_LINES else []
    lines = places if len(places) <= MOST_LINES else []
    for at, colour, width, name in ((grid, FAINT, 0.5, "grid"), (lines, SOFT, 0.6, "complex")):
        drawn = []
        for u in map(float, at):
            drawn += [[(u, 0), (u, 1)], [(0, u), (1, u)], [(0, u), (u, 0)], [(u, 1), (1, u)]]
        made = collections.LineCollection(
            drawn, colors=colour, linewidths=width, zorder=1, gid=name
        )
        axes.add_collection(made, autolim=False)


def _add_diagram(axes, diagram: Diagram) -> None:
    """The merged faces."""
    collections, paths = _module("collections"), _module("path")
    order = diagram.order
    for component, loops in diagram.polygons.items():
        colour = colour_of(component)
        corners, codes = [], []
        for loop in loops:
            corners += [(x / order, y / order) for x, y in (*loop, loop[0])]
            codes += [paths.Path.MOVETO, *[paths.Path.LINETO] * (len(loop) - 1)]
            codes.append(paths.Path.CLOSEPOLY)
        drawn = collections.PathCollection(
            [paths.Path(corners, codes)], facecolors=[(*_rgb(colour), 0.42)], edgecolors=colour,
            linewidths=0.8 if len(loops) <= MANY else 0.3, joinstyle="round", zorder=2,
            gid=_name("triangles", component), rasterized=len(corners) > MOST_CORNERS,
        )  # fmt: skip
        axes.add_collection(drawn, autolim=False)
    for component, segments in diagram.edges.items():
        lines = [[(x / order, y / order) for x, y in segment] for segment in segments]
        drawn = collections.LineCollection(
            lines, colors=colour_of(component), linewidths=2.0 if len(lines) <= MANY else 0.7,
            capstyle="round", zorder=3, clip_on=False, gid=_name("edges", component),
            rasterized=len(lines) > MOST_CORNERS,
        )  # fmt: skip
        axes.add_collection(drawn, autolim=False)
    for component, limits in diagram.limits.items():
        colour = colour_of(component)
        lines, loops = (
            [[(x / order, y / order) for x, y in corners] for corners in each]
            for each in zip(*limits)
        )
        beside = collections.PolyCollection(
            loops, facecolors=[(*_rgb(colour), 0.14)], linewidths=0, zorder=2,
            gid=_name("triangles-of-limits", component),
        )  # fmt: skip
        drawn = collections.LineCollection(
            lines, colors=colour, linewidths=2.0 if len(lines) <= MANY else 0.7, linestyles=DASHES,
            zorder=3, clip_on=False, gid=_name("limits", component),
        )  # fmt: skip
        axes.add_collection(beside, autolim=False)
        axes.add_collection(drawn, autolim=False)
    if diagram.points:
        count = len(diagram.points)
        axes.plot(
            *zip(*((x / order, y / order) for x, y in diagram.points)), "o", color=INK,
            markersize=3.5 if count <= MANY else 1.0, markeredgewidth=0,
            zorder=4, clip_on=False, gid="points", rasterized=count > MOST_MARKS,
        )  # fmt: skip


def _rgb(colour: str) -> Tuple[float, ...]:
    return tuple(int(colour[i : i + 2], 16) / 255 for i in (1, 3, 5))


def _add_projections(
    sheet: _Sheet, diagram: Diagram, left: float, below: float, size: float
) -> None:
    """A bar at each border: by x above, by y on the left, by x + y below and on the right."""
    by_x, by_y, by_sum = diagram.projections
    far, near = size + GAP, -GAP - BAR
    # The words stand where nothing else does: at which end, by how many points beside it.
    for name, runs, x, y, upright, word, end, beside, ha, va in (
        ("above", by_x, 0.0, far, False, "x", (1, 0.5), (4, 0), "left", "center"),
        ("left", by_y, near, 0.0, True, "y", (0.5, 1), (0, 4), "center", "bottom"),
        ("below", by_sum, 0.0, near, False, "x + y", (0, 0.5), (-4, 0), "right", "center"),
        ("right", by_sum, far, 0.0, True, "x + y", (0, 0), (0, -5), "left", "top"),
    ):
        across, along = (BAR, size) if upright else (size, BAR)
        axes = sheet.axes(left + x, below + y, across, along)
        axes.axis("off")
        axes.set(xlim=(0, 1), ylim=(0, 1))
        axes.annotate(
            word, end, beside, textcoords="offset points", ha=ha, va=va, fontsize=SMALL,
            fontstyle="italic", annotation_clip=False,
        )  # fmt: skip
        for component, each in runs.items():
            bars = []
            for first, last in each:
                u, v = first / diagram.order, last / diagram.order
                bar = [(u, 0), (v, 0), (v, 1), (u, 1)]
                bars.append([(j, i) for i, j in bar] if upright else bar)
            drawn = _module("collections").PolyCollection(
                bars, facecolors=colour_of(component), linewidths=0, gid=_name(name, component)
            )
            axes.add_collection(drawn, autolim=False)
