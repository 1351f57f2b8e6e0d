"""Pictures and reports: what is drawn, and not how it looks."""
import base64
import contextlib
import html.parser
import io
import itertools
import os
import random
import subprocess
import sys
import tempfile
import unittest
from fractions import Fraction
from pathlib import Path

import gjcut
from gjcut import _diagram, _plot, command_line

try:
    import matplotlib
except ImportError:
    matplotlib = None

EXAMPLES = Path(__file__).resolve().parents[2] / "examples"
needs_matplotlib = unittest.skipUnless(matplotlib, "there is no matplotlib")
SIX = ("1/2", [(0, 0), ("1/6", "2/3"), ("1/3", "1/3"), ("1/2", 1), ("2/3", "1/3"), ("5/6", "2/3")])
JUMPS = ("3/5", [(0, "5/6", 0, 0), ("3/5", 1, 1, "1/6")])
# It is covered only with an edge by limits.
LIMITS = (
    "2/5",
    [
        (0, "5/8", 0, "5/8"), ("1/5", "3/16", "1/2", "13/16"), ("2/5", "3/8", 1, "3/8"),
        ("3/5", "1/4", "1/4", "9/16"), ("4/5", "7/16", "3/4", "3/4"),
    ],
)
# Its halves jump at 1/4, where it does not.
CONTINUOUS_AT_A_QUARTER = (
    "1/2",
    [(0, "1/2", 0, "3/4"), ("1/4", "1/2"), ("1/2", "1/4", 1, "1/2"), ("3/4", "1/4", "1/2", "3/4")],
)
BLUE, ORANGE = ((*_plot._rgb(colour), 1) for colour in _plot.COLOURS[:2])


def drawn(picture, name):
    """What has this name in a picture."""
    return [each for each in picture.figure.findobj() if each.get_gid() == name]


def places(line):
    return [tuple(float(x) for x in place) for place in line.get_xydata()]


class Geometry(unittest.TestCase):
    def diagram(self, *function):
        made = gjcut.by_breakpoints(*function)
        text = gjcut.faces(made).text
        return text, _diagram.diagram_of(text, made)

    def test_gmic_is_additive_in_two_triangles(self):
        # On x + y <= f, and on x, y >= f with x + y >= 1 + f.
        _, found = self.diagram("3/5", [(0, 0), ("3/5", 1)])
        self.assertEqual(
            found.polygons, {0: (((0, 0), (3, 0), (0, 3)),), 1: (((3, 5), (5, 3), (5, 5)),)}
        )
        self.assertEqual(found.projections, ({0: ((0, 3),), 1: ((3, 5),)},) * 3)
        # Where x or y is whole the values add up everywhere: at the borders without a triangle.
        self.assertEqual(found.edges[0], (((0, 5), (3, 5)), ((5, 0), (5, 3))))
        self.assertEqual(found.edges[1], (((0, 3), (0, 5)), ((3, 0), (5, 0))))

    def test_symmetry_gives_an_edge_on_an_uncovered_interval(self):
        text, found = self.diagram(*SIX)
        self.assertIn(((1, 2), (2, 1)), found.edges[None])
        self.assertEqual(_diagram.components_of(text), [0, None, 0, 1, None, 1])
        function = gjcut.by_breakpoints(*SIX)
        pieces = _diagram.pieces_of(function, _diagram.components_of(text))
        self.assertEqual([piece.component for piece in pieces], [0, None, 0, 1, None, 1])
        self.assertEqual(_diagram.slopes_of(pieces), {0: 4, None: -2, 1: -4})

    def test_edges_that_join_by_limits_from_a_triangle(self):
        # The interval from 3/5 is joined to that from 2/5 by the right edge of Upper (0, 2): from
        # its inside x comes to 1/5 from the left, and the limit there is 3/16. With 3/8 from the
        # right at 2/5 it is 9/16, the limit from the right at 3/5; with 1/4 from the left at 3/5
        # it is 7/16, that from the left at 4/5.
        _, found = self.diagram(*LIMITS)
        triangle = ((1, 2), (0, 3), (1, 3))
        self.assertEqual(found.limits, {1: ((((1, 2), (1, 3)), triangle),)})
        self.assertEqual(sorted(found.polygons), [0, 1])
        self.assertEqual(self.diagram("3/5", [(0, 0), ("3/5", 1)])[1].limits, {})

    def test_an_edge_below_a_triangle_need_not_be_additive(self):
        # The strong fractional cut is additive inside of the triangle on x = 0 at the top, and not
        # on the edge at y = 3/5 below it. At the borders x and y are whole, and the values add up.
        _, found = self.diagram(*JUMPS)
        self.assertIn(((0, 3), (0, 5), (2, 3)), map(_sorted_loop, found.polygons[0]))
        self.assertIn(((0, 5), (5, 5)), found.edges[0])
        self.assertFalse([each for each in found.edges[0] if each[0][1] == each[1][1] == 3])

    def test_merged_triangles_are_those_that_were_merged(self):
        chance = random.Random(7)
        for order, _ in itertools.product((1, 2, 5, 9), range(30)):
            rows = _diagram._Rows(order)
            for kind, b in itertools.product((rows.lower, rows.upper), range(order)):
                kind[b] = chance.getrandbits(order) | chance.getrandbits(order)
            loops = list(_diagram._loops(rows.border()))
            for a, b in itertools.product(range(order), repeat=2):
                for kind, third in ((rows.lower, 1), (rows.upper, 2)):
                    inside = sum(winding(loop, (3 * a + third, 3 * b + third)) for loop in loops)
                    self.assertEqual(inside, kind[b] >> a & 1)

    def test_parts_that_touch_have_polygons_of_their_own(self):
        rows = _diagram._Rows(2)
        rows.lower[:] = [0b01, 0b10]
        rows.upper[:] = [0b01, 0b10]
        squares = [((0, 0), (1, 0), (1, 1), (0, 1)), ((1, 1), (2, 1), (2, 2), (1, 2))]
        self.assertEqual(sorted(_diagram._loops(rows.border())), squares)


def _sorted_loop(loop):
    return tuple(sorted(loop))


def winding(loop, point):
    """How often a loop goes around a point, in thirds of a step, that lies on no edge of it."""
    x, y = point
    turns = 0
    for (a, b), (c, d) in zip(loop, [*loop[1:], loop[0]]):
        a, b, c, d = 3 * a, 3 * b, 3 * c, 3 * d
        side = (c - a) * (y - b) - (x - a) * (d - b)
        turns += (b <= y < d and side > 0) - (d <= y < b and side < 0)
    return turns


@needs_matplotlib
class Drawn(unittest.TestCase):
    def test_a_graph_has_the_colours_of_its_components(self):
        picture = gjcut.plot(gjcut.by_breakpoints("3/5", [(0, 0), ("3/5", 1)]))
        (rise,), (fall,) = drawn(picture, "graph-0"), drawn(picture, "graph-1")
        self.assertEqual(rise.get_segments()[0].tolist(), [[0, 0], [0.6, 1]])
        self.assertEqual(fall.get_segments()[0].tolist(), [[0.6, 1], [1, 0]])
        self.assertEqual([tuple(each.get_color()[0]) for each in (rise, fall)], [BLUE, ORANGE])
        axes = rise.axes
        self.assertEqual([each.get_text() for each in axes.get_yticklabels()], ["0", "1"])
        labels = [each.get_text() for each in axes.get_xticklabels()]
        self.assertEqual(labels, ["0", r"$\dfrac{3}{5}$", "1"])

    def test_limits_are_open_dots_and_values_filled_ones(self):
        picture = gjcut.plot(gjcut.by_breakpoints(*JUMPS))
        (limits,), (values,) = drawn(picture, "limits"), drawn(picture, "values")
        self.assertEqual(places(limits), [(1, float(Fraction(5, 6))), (0.6, float(Fraction(1, 6)))])
        self.assertEqual(places(values), [(0, 0), (1, 0), (0.6, 1)])
        self.assertEqual(limits.get_markerfacecolor(), _plot.PAPER)
        self.assertEqual(values.get_markerfacecolor(), _plot.INK)

    def test_a_violation_has_its_points_and_its_slack(self):
        wrong = [(0, 0), ("1/5", "1/10"), ("2/5", "9/10"), ("3/5", 1)]
        verdict = gjcut.minimal(gjcut.by_breakpoints("3/5", wrong))
        picture = gjcut.plot(verdict)
        (first,), (total,) = (drawn(picture, f"violation-{i}") for i in (0, 1))
        self.assertEqual((places(first), places(total)), ([(0.2, 0.1)], [(0.4, 0.9)]))
        # 1/10 + 1/10 - 9/10.
        self.assertTrue(any("slack −7/10" in words for words in legend(picture)))
        (star,) = drawn(gjcut.plot_faces(verdict), "violation")
        self.assertEqual(places(star), [(0.2, 0.2)])

    def test_halves_and_their_difference(self):
        verdict = gjcut.extreme(gjcut.by_breakpoints(*SIX))
        picture = gjcut.plot(verdict)
        for name, function in (
            ("function", gjcut.by_breakpoints(*SIX)),
            ("first-half", verdict.halves[0]),
            ("second-half", verdict.halves[1]),
            ("difference", verdict.halves[0] - verdict.halves[1]),
        ):
            (line,) = drawn(picture, name)
            (corners,) = line.get_segments()
            for x, y in corners:
                self.assertAlmostEqual(y, float(function.at(Fraction(x).limit_denominator(24))))

    def test_halves_that_jump_have_dots_of_their_colours(self):
        function = gjcut.by_breakpoints(*CONTINUOUS_AT_A_QUARTER)
        picture = gjcut.plot(gjcut.extreme(function))
        quarter = Fraction(1, 4)
        self.assertNotIn(quarter, [x for x, _ in places(drawn(picture, "values")[0])])
        first, second = gjcut.extreme(function).halves
        for i, (half, name) in enumerate(((first, "first"), (second, "second"))):
            (limits,) = drawn(picture, f"limits-of-{name}-half")
            (values,) = drawn(picture, f"values-of-{name}-half")
            _, left, value, right = half.limits(quarter)
            self.assertEqual(
                sorted(y for x, y in places(limits) if x == quarter),
                sorted([float(left), float(right)]),
            )
            self.assertIn((0.25, float(value)), places(values))
            self.assertEqual(limits.get_markerfacecolor(), _plot.PAPER)
            self.assertEqual(values.get_markerfacecolor(), _plot.COLOURS[i])
        self.assertEqual(len(drawn(picture, "limits-of-difference")), 1)

    def test_edges_by_limits_are_dashed_and_in_the_key(self):
        picture = gjcut.plot_faces(gjcut.by_breakpoints(*LIMITS))
        (edges,) = drawn(picture, "limits-1")
        self.assertEqual(edges.get_segments()[0].tolist(), [[0.2, 0.4], [0.2, 0.6]])
        self.assertNotEqual(edges.get_linestyle()[0][1], None)
        self.assertEqual(len(drawn(picture, "triangles-of-limits-1")), 1)
        self.assertIn("joined by limits from a triangle", legend(picture))
        other = gjcut.plot_faces(gjcut.by_breakpoints(*JUMPS))
        self.assertNotIn("joined by limits from a triangle", legend(other))

    def test_the_diagram_has_the_merged_faces_and_the_projections(self):
        picture = gjcut.plot_faces(gjcut.by_breakpoints("3/5", [(0, 0), ("3/5", 1)]))
        (low,), (high,) = drawn(picture, "triangles-0"), drawn(picture, "triangles-1")
        (path,) = low.get_paths()
        self.assertEqual(path.vertices.tolist(), [[0, 0], [0.6, 0], [0, 0.6], [0, 0]])
        self.assertEqual(tuple(low.get_edgecolor()[0]), BLUE)
        self.assertEqual(tuple(high.get_edgecolor()[0]), ORANGE)
        for side in ("above", "left", "below", "right"):
            (bar,) = drawn(picture, f"{side}-1")
            (path,) = bar.get_paths()
            along = path.vertices[:, 1 if side in ("left", "right") else 0]
            self.assertEqual((along.min(), along.max()), (0.6, 1))
        # The graph stands above the square and, turned, on the left of it.
        (above,), (left,) = drawn(picture, "graph-0"), drawn(picture, "graph-on-the-left-0")
        self.assertEqual(above.get_segments()[0].tolist(), [[0, 0], [0.6, 1]])
        self.assertEqual(left.get_segments()[0].tolist(), [[0, 0], [1, 0.6]])

    def test_no_words_lie_on_others(self):
        three = [(0, 0), ("1/9", "5/9"), ("8/45", "2/9")]
        three += [("28/45", "7/9"), ("31/45", "4/9"), ("4/5", 1)]
        fine = [(0, 0), ("499/1000", 1)]
        steep = [(0, 0), ("1/12", 1), ("1/6", "2/13"), ("11/12", "11/13")]
        near = [(0, 0), ("1/1000", "1/3"), ("498/1000", "2/3"), ("499/1000", 1)]
        long = [(0, 0), ("1/97", "1/100003"), ("2/97", "99999/100003"), ("96/97", "1/7")]
        all_points = ("4/5", three), ("499/1000", fine), ("1/12", steep), ("499/1000", near), SIX
        all_points = *all_points, LIMITS, CONTINUOUS_AT_A_QUARTER
        for points in (*all_points, ("3/97", long)):
            function = gjcut.by_breakpoints(*points)
            verdict = gjcut.extreme(function)
            for shown, way, width in itertools.product(
                (function, verdict), (gjcut.plot, gjcut.plot_faces), (3.5, 4.4, 5.0)
            ):
                self.assert_apart(way(shown, width=width))

    def assert_apart(self, picture):
        picture.bytes("png", dots=72)
        words = [each for legend in picture.figure.legends for each in legend.get_texts()]
        for axes in picture.figure.axes:
            words += axes.texts
            if axes.axison:
                words += [*axes.get_xticklabels(), *axes.get_yticklabels()]
        boxes = [(each.get_text(), each.get_window_extent()) for each in words if each.get_text()]
        for (one, box), (other, next_box) in itertools.combinations(boxes, 2):
            across = min(box.x1, next_box.x1) - max(box.x0, next_box.x0)
            along = min(box.y1, next_box.y1) - max(box.y0, next_box.y0)
            self.assertFalse(across > 1 and along > 1, f"{picture}: {one} lies on {other}")
        whole = picture.figure.bbox
        for word, box in boxes:
            is_inside = box.x0 >= -1 and box.x1 <= whole.x1 + 1 and box.y0 >= -1
            self.assertTrue(is_inside, f"{picture}: {word} is not all in the picture")

    def test_notebooks_show_functions_and_verdicts(self):
        gmic = gjcut.family("gmic", "3/5")
        for shown in (gmic, gjcut.extreme(gmic), gjcut.plot_faces(gmic)):
            self.assertTrue(shown._repr_png_().startswith(b"\x89PNG"))
            self.assertIn("<svg", shown._repr_svg_())
        half = gjcut.extreme(gjcut.by_breakpoints(*SIX)).halves[0]
        self.assertEqual(gjcut.plot(half)._repr_svg_(), half._repr_svg_())

    def test_a_part_of_a_figure_can_be_drawn_into(self):
        from matplotlib.figure import Figure

        figure = Figure(figsize=(10, 5))
        left, right = figure.subfigures(1, 2)
        gmic = gjcut.family("gmic", "3/5")
        self.assertIs(gjcut.plot(gmic, figure=left).figure, figure)
        gjcut.plot_faces(gmic, figure=right)
        self.assertEqual(len(drawn(gjcut.plot(gmic, figure=figure), "graph-0")), 3)

    def test_arguments_of_a_wrong_type(self):
        gmic = gjcut.family("gmic", "3/5")
        for call, said in (
            (lambda: gjcut.plot("3/5"), "shown: '3/5' is a str: write a Function or a Verdict"),
            (lambda: gjcut.plot(gmic, figure=3), "figure: 3 is an int: write a Figure"),
            (lambda: gjcut.plot(gmic, width="5"), "width: '5' is a str: write a width in inches"),
            (lambda: gjcut.plot(gmic).save(3), "name: 3 is an int: write the name of a file"),
        ):
            with self.assertRaises(TypeError) as raised:
                call()
            self.assertIn(said, str(raised.exception))
        with self.assertRaises(ValueError):
            gjcut.plot(gmic).save("gmic.jpg")


def legend(picture):
    return [each.get_text() for legend in picture.figure.legends for each in legend.get_texts()]


def asked(*words):
    """What a command prints, and its status."""
    said = io.StringIO()
    with contextlib.redirect_stdout(said):
        status = command_line.main(list(map(str, words)))
    return said.getvalue(), status


class Commands(unittest.TestCase):
    def setUp(self):
        folder = tempfile.TemporaryDirectory()
        self.addCleanup(folder.cleanup)
        self.folder = Path(folder.name)
        self.six = EXAMPLES / "extreme/not_extreme_six_pieces/input"

    @needs_matplotlib
    def test_pictures_of_each_kind(self):
        jumps = EXAMPLES / "extreme/jumps_of_the_halves_alone/input"
        for kind, begin, words in (
            ("svg", b"<?xml", ()),
            ("png", b"\x89PNG", ("--faces",)),
            ("pdf", b"%PDF", ("--halves",)),
        ):
            for file in (self.six, jumps):
                name = self.folder / f"{file.parent.name}.{kind}"
                said, status = asked("plot", file, "-o", name, *words)
                self.assertEqual(status, 0, said)
                self.assertTrue(name.read_bytes().startswith(begin))

    @needs_matplotlib
    def test_a_file_that_is_there_stays_but_for_force(self):
        for words in (("plot", self.six, "-o"), ("report", self.six, "-o")):
            name = self.folder / "there.svg"
            name.write_text("mine")
            said, status = asked(*words, name)
            self.assertEqual((status, name.read_text()), (5, "mine"))
            self.assertEqual(said, f"{name}: it is there already: write --force to replace it\n")
            self.assertEqual(asked(*words, name, "--force")[1], 0)
            self.assertNotEqual(name.read_text(), "mine")
            name.unlink()

    @needs_matplotlib
    def test_what_cannot_be_drawn_says_why(self):
        refused = self.folder / "refused"
        refused.write_text("gj-function 2\nf = 3/5\npoint 0 0\npoint 3/5 1\nend\n")
        jumps = EXAMPLES / "literature/ll_strong_fractional/input"
        name = self.folder / "drawn.svg"
        for file, words, status, said in (
            (refused, (), 3, "refused, line 2: refused, form\n    f = 3/5\n"),
            (refused, ("--faces",), 3, "refused, line 2: refused, form\n    f = 3/5\n"),
            (jumps, ("--halves",), 8, "it has no halves"),
            (EXAMPLES / "extreme/five_pieces/input", ("--halves",), 8, "it has no halves"),
            (self.folder / "none", (), 4, "none: it cannot be read"),
        ):
            told, found = asked("plot", file, "-o", name, *words)
            self.assertEqual(found, status, told)
            self.assertIn(said, told)
            self.assertFalse(name.exists())
        told, status = asked("plot", self.six, "-o", self.folder / "drawn.jpg")
        self.assertEqual(status, 2)
        self.assertIn("must end with .svg or .png or .pdf", told)
        told, status = asked("plot", self.six, "-o", self.folder / "no/drawn.svg")
        self.assertEqual(status, 5)

    def test_without_matplotlib_one_sentence_names_it(self):
        code = (
            "import sys; sys.modules['matplotlib'] = None\n"
            "import gjcut; from gjcut.command_line import main\n"
            "print(gjcut.family('gmic', '3/5')._repr_svg_())\n"
            "sys.exit(main(sys.argv[1:]))"
        )
        for command in ("plot", "report"):
            words = [command, str(self.six), "-o", str(self.folder / "six.svg")]
            done = subprocess.run(
                [sys.executable, "-c", code, *words],
                env={**os.environ, "PYTHONPATH": str(Path(gjcut.__file__).parents[1])},
                capture_output=True,
                text=True,
                check=False,
            )
            self.assertEqual(done.returncode, 15, done.stderr)
            shown, *_, last = done.stdout.splitlines()
            self.assertEqual(shown, "None")
            self.assertIn("pictures need the package matplotlib, which is not here", last)
            self.assertIn("apt-get install python3-matplotlib", last)

    @needs_matplotlib
    def test_a_report(self):
        name = self.folder / "report.html"
        refused = self.folder / "<refused>"
        refused.write_text("gj-function 1\norder 2\nend\n")
        jumps = EXAMPLES / "literature/ll_strong_fractional/input"
        wrong = EXAMPLES / "minimal/superadditive_pair/input"
        said, status = asked("report", self.six, jumps, wrong, refused, "-o", name)
        self.assertEqual(status, 3, said)
        text = name.read_text()
        page = Page()
        page.feed(text)
        page.close()
        self.assertEqual(page.open, [])
        self.assertEqual(page.heads["h1"], ["Report of gjcut"])
        files = [str(each) for each in (self.six, jumps, wrong, refused)]
        self.assertEqual(page.heads["h2"], [*files, "What answered"])
        self.assertEqual(page.heads["h3"].count("The proof, line by line"), 3)
        # Graph, faces and halves; twice a graph and faces.
        self.assertEqual(page.pictures, 7)
        # Nothing comes from elsewhere, and nothing runs.
        for link in page.links:
            self.assertRegex(link, "^(#|data:text/plain;base64,)")
        self.assertFalse({"script", "link", "img", "iframe"} & page.tags)
        self.assertNotIn("url(http", text)
        self.assertEqual(len(page.names), len(set(page.names)))
        proofs = [base64.b64decode(link[23:]).decode() for link in page.links if link[0] == "d"]
        self.assertEqual(
            [gjcut.check(proof).claim for proof in proofs],
            ["not-extreme", "extreme", "not-minimal"],
        )
        for words in (
            "accepted not-extreme",
            "proves that π is extreme: minimal, and no average of two other valid functions",
            "proves that π is not minimal: it is not subadditive",
            "prefers-color-scheme: dark",
        ):
            self.assertIn(words, text)


class Page(html.parser.HTMLParser):
    """What a page has."""

    def __init__(self):
        super().__init__()
        self.open, self.tags, self.links, self.names, self.pictures = [], set(), [], [], 0
        self.heads = {"h1": [], "h2": [], "h3": []}

    def handle_starttag(self, tag, attributes):
        self.tags.add(tag)
        values = dict(attributes)
        self.names += [values["id"]] if "id" in values else []
        self.pictures += tag == "svg" and values.get("role") == "img"
        self.links += [values[key] for key in ("href", "xlink:href", "src") if values.get(key)]
        if tag in self.heads:
            self.heads[tag].append("")
        if tag not in ("meta", "br"):
            self.open.append(tag)

    def handle_startendtag(self, tag, attributes):
        self.handle_starttag(tag, attributes)
        self.open.pop()

    def handle_endtag(self, tag):
        assert self.open.pop() == tag

    def handle_data(self, data):
        if self.open and self.open[-1] in self.heads:
            self.heads[self.open[-1]][-1] += data


if __name__ == "__main__":
    unittest.main()
