"""Searches for all extreme functions of an order, `gjcut.map`, and what cutgeneratingfunctionology
hands over."""
import importlib.util
import json
import os
import shutil
import subprocess
import sys
import tempfile
import unittest
from concurrent.futures import Executor, Future, ProcessPoolExecutor, ThreadPoolExecutor
from fractions import Fraction
from multiprocessing import get_context
from pathlib import Path
from unittest import mock

import gjcut
from gjcut import _optional, _progress, _vertices

TOP = Path(__file__).resolve().parents[2]
PACKAGES = Path(gjcut.__file__).parents[1]
HAS_LRS = shutil.which("lrs") is not None
HAS_PPL = importlib.util.find_spec("ppl") is not None
HAS_DASK = importlib.util.find_spec("distributed") is not None


def facets_of_order_6():
    """What lrs gave without this package: f, and the values of each extreme table."""
    lines = (TOP / "examples/group/facets_of_order_6/facets").read_text().splitlines()
    for line in lines:
        if not line.startswith("#"):
            f, values = line[2:].split(":")
            yield Fraction(f), tuple(map(Fraction, values.split()))


def claims(found):
    """The values of each table of a search, and whether its function is extreme."""
    return {
        (each.f, tuple(point.value for point in table)): table in each.extreme
        for each in found
        for table in each.tables
    }


class Stopping(Executor):
    """An executor that a person stops, at the task with this number."""

    def __init__(self, number):
        self.left = number

    def submit(self, task, *given):
        future = Future()
        self.left -= 1
        if self.left < 0:
            raise KeyboardInterrupt
        future.set_result(task(*given))
        return future


@unittest.skipUnless(HAS_LRS or HAS_PPL, "there is no lrs, and no Parma Polyhedra Library")
class Searches(unittest.TestCase):
    def test_order_6(self):
        found = claims(gjcut.search(6))
        self.assertEqual(set(found), set(facets_of_order_6()))
        for f in {f for f, _ in found}:
            values = tuple(gjcut.family("gmic", f)(Fraction(i, 6)) for i in range(6))
            self.assertTrue(found[f, values])

    def test_each_table_of_a_class_is_decided(self):
        # The values of the mixed-integer cut at 3 x: a plain program says that it is not extreme.
        found = claims(gjcut.search(8, "1/2"))
        values = tuple(Fraction(i, 4) for i in (0, 3, 2, 1, 4, 1, 2, 3))
        cut = tuple(Fraction(i, 4) for i in (0, 1, 2, 3, 4, 3, 2, 1))
        self.assertEqual((found[Fraction(1, 2), values], found[Fraction(1, 2), cut]), (False, True))

    def test_functions_with_two_slopes_are_found(self):
        found = claims(gjcut.search(8, "5/8"))
        tried = 0
        for signs in ("+++++---", "++-++---", "+-+-+---"):
            function = gjcut.family("two-slope", 5, signs)
            if gjcut.minimal(function).is_minimal:
                tried += 1
                values = tuple(function(Fraction(i, 8)) for i in range(8))
                self.assertTrue(found[Fraction(5, 8), values], signs)
        self.assertGreater(tried, 1)

    def test_both_programs_list_the_same(self):
        if not (HAS_LRS and HAS_PPL):
            self.skipTest("there is only one of lrs and the Parma Polyhedra Library")
        for order, place in ((2, 1), (3, 1), (4, 1), (9, 3), (10, 5), (12, 1)):
            lists = [_vertices.extreme_tables(order, place, name, False) for name in ("lrs", "ppl")]
            self.assertEqual(*lists)

    def test_classes_are_those_of_automorphisms(self):
        found = gjcut.search(8, "1/2")
        self.assertEqual(sum(len(each.tables) for each in found), len(claims(found)))
        for each in found:
            tables = {tuple(point.value for point in table) for table in each.tables}
            for u in (1, 3, 5, 7):
                turned = {tuple(table[u * i % 8] for i in range(8)) for table in tables}
                self.assertEqual(turned, tables)

    def test_executors_give_the_same(self):
        found = gjcut.search(10)
        spawn = get_context("spawn")
        with ThreadPoolExecutor(4) as threads, ProcessPoolExecutor(2, spawn) as processes:
            for executor in (threads, processes):
                self.assertEqual(gjcut.search(10, executor=executor), found)

    def test_an_interrupted_search_goes_on(self):
        with tempfile.TemporaryDirectory() as folder:
            file = Path(folder) / "ten.json"
            with self.assertRaises(KeyboardInterrupt):
                gjcut.search(10, file=file, executor=Stopping(4))
            kept = json.loads(file.read_text())
            self.assertEqual(len(kept["tables"]["1"]), 12)
            self.assertTrue(kept["extreme"])
            self.assertLess(len(kept["extreme"]), 9)
            self.assertEqual(gjcut.search(10, file=str(file)), gjcut.search(10))
            whole = file.read_bytes()
            # All is done, and nobody is asked.
            with mock.patch("gjcut._search.done", side_effect=AssertionError):
                self.assertEqual(len(claims(gjcut.search(10, file=file))), 4 * 12 + 4 * 7 + 16)
            self.assertEqual(file.read_bytes(), whole)
            with self.assertRaisesRegex(ValueError, "of order 10, not 9"):
                gjcut.search(9, file=file)
            for text in ("", "{}", "[1]", '{"form": "gjcut search 1", "order": 10}', "gj-proof 1"):
                file.write_text(text)
                with self.assertRaisesRegex(ValueError, "no file of a search"):
                    gjcut.search(10, file=file)
                self.assertEqual(file.read_text(), text)
            self.assertEqual(os.listdir(folder), ["ten.json"])

    def test_arguments(self):
        for given, named, kind in (
            ((1,), {}, ValueError), ((6.0,), {}, TypeError), ((6, 0.5), {}, TypeError),
            ((6, "1/4"), {}, ValueError), ((6, 1), {}, ValueError),
            ((6,), {"program": "cdd"}, ValueError), ((6,), {"executor": 4}, TypeError),
        ):  # fmt: skip
            with self.assertRaises(kind):
                gjcut.search(*given, **named)

    def test_a_missing_program_is_one_sentence(self):
        with mock.patch("gjcut._vertices._is_here", return_value=False):
            for name, debian in ((None, "lrslib"), ("lrs", "lrslib"), ("ppl", "python3-ppl")):
                with self.assertRaisesRegex(_optional.PackageMissing, debian) as raised:
                    gjcut.search(6, program=name)
                self.assertNotIn("\n", str(raised.exception))

    def test_a_list_that_ends_early_is_none(self):
        with tempfile.TemporaryDirectory() as folder:
            lrs = Path(folder) / "lrs"
            lrs.write_text("#!/bin/sh\ncat > /dev/null\necho begin\necho ' 1  1/2 1/3'\nexit 3\n")
            lrs.chmod(0o755)
            with mock.patch("shutil.which", return_value=str(lrs)):
                with self.assertRaisesRegex(RuntimeError, "lrs ended with status 3"):
                    gjcut.search(6, "1/6", program="lrs")


def claim(function):
    return gjcut.extreme(function).claim


class Maps(unittest.TestCase):
    def setUp(self):
        self.functions = [gjcut.family("gmic", Fraction(i, 30)) for i in range(1, 30)]
        self.functions[4] = gjcut.family("half", "1/2")
        two = [gjcut.literature.gj_2_slope("1/2", "1/2"), gjcut.family("gmic", "1/2")]
        self.functions[7] = gjcut.literature.average(*two)

    def assert_answers(self, found):
        found = list(found)
        self.assertEqual(len(found), 29)
        if isinstance(found[4], gjcut.Refused):
            self.assertEqual(found[4].status, 8)
        self.assertEqual(found[7].claim, "not-extreme")
        for i, each in enumerate(found):
            self.assertTrue(i in (4, 7) or each == gjcut.extreme(self.functions[i]), i)

    def test_executors(self):
        self.assert_answers(gjcut.map(gjcut.extreme, self.functions))
        with ThreadPoolExecutor(4) as pool:
            for chunk in (1, 8, 100):
                self.assert_answers(gjcut.map(gjcut.extreme, self.functions, pool, chunk=chunk))
            self.assert_answers(gjcut.map(gjcut.extreme, iter(self.functions), pool))
            self.assertEqual(list(gjcut.map(gjcut.extreme, [], pool)), [])

    @unittest.skipUnless(HAS_DASK, "there is no Dask")
    def test_a_cluster_of_two_workers(self):
        import distributed

        paths = os.pathsep.join(filter(None, [str(PACKAGES), os.environ.get("PYTHONPATH")]))
        with mock.patch.dict(os.environ, {"PYTHONPATH": paths}):
            with distributed.LocalCluster(
                n_workers=2, threads_per_worker=1, processes=True, dashboard_address=None
            ) as cluster, distributed.Client(cluster) as client:
                self.assertEqual(len(client.scheduler_info()["workers"]), 2)
                executor = client.get_executor()
                self.assert_answers(gjcut.map(gjcut.extreme, self.functions, executor))
                if HAS_LRS or HAS_PPL:
                    self.assertEqual(gjcut.search(9, executor=executor), gjcut.search(9))

    def test_a_script_without_its_guard(self):
        script = (
            "import gjcut\n{}print([each.claim for each in "
            "gjcut.map(gjcut.minimal, [gjcut.family('gmic', '1/2')])])\n"
        )
        with tempfile.TemporaryDirectory() as folder:
            file = Path(folder) / "script.py"
            for guard in ("", 'if __name__ == "__main__": '):
                file.write_text(script.format(guard))
                done = subprocess.run(
                    [sys.executable, str(file)], capture_output=True, text=True, check=False,
                    env={**os.environ, "PYTHONPATH": str(PACKAGES)},
                )  # fmt: skip
                if guard:
                    self.assertEqual(done.stdout, "['minimal']\n", done.stderr)
                else:
                    self.assertIn('below the line if __name__ == "__main__":', done.stderr)

    def test_arguments(self):
        for given, named in (
            (("extreme", []), {}), ((gjcut.extreme, "ab"), {}), ((gjcut.extreme, 3), {}),
            ((gjcut.extreme, [], 4), {}), ((gjcut.extreme, []), {"progress": 1}),
            ((gjcut.extreme, []), {"chunk": 2.0}),
        ):  # fmt: skip
            with self.assertRaises(TypeError):
                gjcut.map(*given, **named)
        with self.assertRaises(ValueError):
            gjcut.map(gjcut.extreme, [], chunk=0)
        with ThreadPoolExecutor(1) as pool, self.assertRaises(TypeError):
            list(gjcut.map(gjcut.extreme, [3], pool))

    def test_progress(self):
        with mock.patch("importlib.import_module", side_effect=ImportError(name="tqdm")):
            self.assertEqual(list(_progress.shown([1, 2], "numbers", 2, None)), [1, 2])
            with self.assertRaisesRegex(_optional.PackageMissing, "python3-tqdm"):
                _progress.shown([1, 2], "numbers", 2, True)
        self.assertIn("map", dir(gjcut))
        self.assertIs(gjcut.map, gjcut._map.map)


class StandIn:
    """Stands in for FastPiecewise of cutgeneratingfunctionology, which needs Sage. It has the two
    calls that are used, with the results that their documentation tells: the limits of a point are
    the value, the limit from the right and the limit from the left."""

    def __init__(self, points):
        self.points = dict(points)

    def end_points(self):
        return list(self.points)

    def limits(self, x):
        return list(self.points[x])


class OfSage:
    """Stands in for a fraction of Sage, whose numerator and denominator are calls."""

    def __init__(self, *parts):
        self.parts = Fraction(*parts)

    def numerator(self):
        return self.parts.numerator

    def denominator(self):
        return self.parts.denominator


class Irrational:
    """Stands in for a number of Sage that is no fraction."""

    def __str__(self):
        return "1/4*sqrt(2)"


def continuous(points):
    places = list(points)
    ends = {places[0]: 2, places[-1]: 1}
    limits = {}
    for x, y in points.items():
        limits[x] = [None if i == ends.get(x) else y for i in range(3)]
    return StandIn(limits)


class FromPiecewise(unittest.TestCase):
    def test_continuous(self):
        values = {0: OfSage(0), OfSage(1, 3): OfSage(5, 9), OfSage(3, 5): OfSage(1), 1: 0}
        function = gjcut.from_piecewise(continuous(values))
        self.assertEqual(function, gjcut.family("gmic", "3/5"))

    def test_jumps(self):
        # As hildebrand_2_sided_discont_1_slope_1 is written there: value, right, left.
        half, quarter, much = Fraction(1, 2), Fraction(1, 4), Fraction(3, 4)
        limits = [(0, half, half), (much, quarter, much), (half,) * 3, (quarter, quarter, much)]
        points = [(Fraction(i, 8), limits[i % 4]) for i in range(9)]
        points[4] = (half, (1, half, half))
        points[0], points[8] = (0, (0, half, None)), (1, (0, None, half))
        function = gjcut.from_piecewise(StandIn(points))
        self.assertEqual(function, gjcut.literature.hildebrand_2_sided_discont_1_slope_1())

    def test_f_where_there_are_two(self):
        h = continuous({Fraction(i, 4): i % 2 for i in range(5)})
        with self.assertRaisesRegex(ValueError, "1 at 1/4, 3/4: say which"):
            gjcut.from_piecewise(h)
        self.assertEqual(gjcut.from_piecewise(h, "3/4").f, Fraction(3, 4))
        with self.assertRaisesRegex(ValueError, "1 at none"):
            gjcut.from_piecewise(continuous({0: 0, Fraction(1, 2): Fraction(1, 2), 1: 0}))

    def test_what_is_refused(self):
        for points, kind, said in (
            ({0: 0, Irrational(): 1, 1: 0}, ValueError, r"sqrt\(2\) is no fraction, and irr"),
            ({0: 0, Fraction(1, 2): Irrational(), 1: 0}, ValueError, "limits.*the value.*irrat"),
            ({0: 0, 0.5: 1, 1: 0}, TypeError, r"end_points\(\)\[1\]: 0.5 is a float"),
            ({0: 0, Fraction(1, 2): 1}, ValueError, "from 0 to 1"),
            ({0: 0, Fraction(1, 2): 1, 1: 1}, ValueError, "no period 1"),
        ):
            with self.assertRaisesRegex(kind, said):
                gjcut.from_piecewise(continuous(points))
        with self.assertRaisesRegex(TypeError, "FastPiecewise"):
            gjcut.from_piecewise(gjcut.family("gmic", "1/2").text)
        with self.assertRaises(gjcut.Refused):
            gjcut.from_piecewise(continuous({0: 0, Fraction(1, 1009): 1, 1: 0}))


if __name__ == "__main__":
    unittest.main()
