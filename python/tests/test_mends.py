"""What once went wrong in the package, in the header and on the page of the library."""
import inspect
import json
import multiprocessing
import os
import pickle
import re
import shutil
import subprocess
import sys
import tempfile
import unittest
from decimal import Decimal
from fractions import Fraction
from pathlib import Path

import gjcut
from gjcut import _library

TOP = Path(__file__).resolve().parents[2]
GMIC = [(0, 0), ("3/5", 1)]


def refuse(_: int) -> None:
    gjcut.family("gmic", 2)


class Refusals(unittest.TestCase):
    def place_of(self, call, *arguments):
        with self.assertRaises(gjcut.Refused) as caught:
            call(*arguments)
        return str(caught.exception.place), caught.exception.reason

    def test_a_refusal_is_pickled(self):
        try:
            refuse(0)
        except gjcut.Refused as refused:
            again = pickle.loads(pickle.dumps(refused))
        self.assertEqual(
            (again.status, again.reason, again.line, again.place),
            (3, "bad-f", 2, gjcut.Place("family")),
        )

    def test_a_refusal_in_a_worker_reaches_its_pool(self):
        with multiprocessing.get_context("spawn").Pool(2) as pool:
            with self.assertRaises(gjcut.Refused):
                pool.map_async(refuse, [0]).get(60)

    def test_the_place_of_a_breakpoint(self):
        self.assertEqual(
            self.place_of(gjcut.by_breakpoints, "3/5", [*GMIC, ("3/5", 0)]), ("points[2]", "break")
        )
        self.assertEqual(self.place_of(gjcut.by_breakpoints, "7/5", GMIC), ("f", "place"))
        self.assertEqual(self.place_of(gjcut.by_breakpoints, "3/5", []), ("points", "form"))
        self.assertEqual(
            self.place_of(gjcut.by_breakpoints, "3/5", [(0, 0), ("3/5", 1, 0)]),
            ("points[1]", "form"),
        )

    def test_the_place_of_a_value(self):
        self.assertEqual(
            self.place_of(gjcut.by_values, "1/2", [0, 2**20 + 1]), ("values[1]", "large")
        )
        self.assertEqual(self.place_of(gjcut.by_values, "1/3", [0, 1]), ("f", "place"))
        self.assertEqual(self.place_of(gjcut.by_values, "1/2", [0] * 1001), ("values", "order"))

    def test_the_place_in_a_tableau(self):
        def cut(columns, *rows):
            return self.place_of(gjcut.cut, "gmic", columns, rows)

        good = ("x0", "1/2", [1, 2])
        self.assertEqual(cut(["a", "b c"], good), ("columns[1]", "name"))
        self.assertEqual(cut(["a", 'b"c'], good), ("columns[1]", "name"))
        self.assertEqual(cut(["a", "a"], good), ("columns[1]", "twice"))
        self.assertEqual(
            cut(["a", "b"], good, ("x0", 0, [0, 0])), ("rows[1], the name 'x0'", "twice")
        )
        self.assertEqual(
            cut(["a", "b"], good, ("x1", 0, [0])), ("rows[1], 1 entries for 2 columns", "fields")
        )
        self.assertEqual(
            cut(["a", "b"], good, ("x1", 0, [0, 2**31 + 1])), ("rows[1], 'b'", "large")
        )
        self.assertEqual(
            cut(["a", "b"], good, ("x1", 0, ["1/65536", "1/65537"])), ("rows[1], 'b'", "fine")
        )
        self.assertEqual(
            cut(["a", "b"], good, ("x1", Fraction(1, 2**127), [0, 0])),
            ("rows[1], the right side", "number"),
        )

    def test_a_name_with_blanks_at_its_ends_is_not_changed(self):
        with self.assertRaisesRegex(ValueError, r"columns\[0\].*blank"):
            gjcut.cut("gmic", [" a"], [("x0", "1/2", [1])])


class Arguments(unittest.TestCase):
    def test_a_float_is_refused_everywhere(self):
        for call in (
            lambda: gjcut.family("gmic", 0.25),
            lambda: gjcut.by_breakpoints(0.5, GMIC),
            lambda: gjcut.by_values("1/2", [0, 1.0]),
            lambda: gjcut.cut("gmic", ["a"], [("x", "1/2", [0.5])]),
            lambda: gjcut.family("gmic", "1/2").at(0.5),
        ):
            with self.assertRaisesRegex(TypeError, "is a float: write an int, a Fraction"):
                call()

    def test_numbers_of_each_kind(self):
        self.assertEqual(
            gjcut.family("gmic", Decimal("0.25")), gjcut.family("gmic", Fraction(1, 4))
        )
        self.assertEqual(gjcut.family("gmic", Decimal("2.5E-1")), gjcut.family("gmic", "1/4"))
        with self.assertRaisesRegex(ValueError, "'1/0' is no fraction"):
            gjcut.by_breakpoints("1/0", GMIC)
        with self.assertRaisesRegex(ValueError, "NaN.* is no fraction"):
            gjcut.by_breakpoints(Decimal("NaN"), GMIC)

    def test_no_such_rule(self):
        for call in (gjcut.cut, gjcut.mixed):
            with self.assertRaisesRegex(ValueError, "there is no rule 'gmi'"):
                call("gmi", ["a"], [("x", "1/2", [1])])

    def test_a_text_is_no_function(self):
        with self.assertRaisesRegex(TypeError, "no Function"):
            gjcut.minimal("gj-function 1")

    def test_a_word_of_a_family_is_one_word(self):
        with self.assertRaisesRegex(ValueError, "no single word"):
            gjcut.family("gmic", "1/2\nend")


class Halves(unittest.TestCase):
    def test_halves_of_an_order_that_no_command_reads(self):
        six = gjcut.by_values("1/2", [0, "2/3", "1/3", 1, "1/3", "2/3"])
        function = gjcut.times(six, 83, 41)
        verdict = gjcut.extreme(function)
        first, second = verdict.halves
        self.assertEqual(verdict.claim, "not-extreme")
        self.assertGreater(len(first.points), 1000)
        self.assertEqual((first + second) / 2, function)
        self.assertNotEqual(first, second)
        self.assertEqual((first.at("1/7") + second.at("1/7")) / 2, function.at("1/7"))
        self.assertIn("4,000", gjcut.Verdict.__doc__)

    def test_functions_are_equal_however_they_were_written(self):
        function = gjcut.family("gmic", "3/5")
        for other in (
            gjcut.by_breakpoints("3/5", GMIC),
            gjcut.by_breakpoints("3/5", [(0, 0), ("1/5", "1/3"), ("3/5", 1)]),
            gjcut.fill(function),
        ):
            self.assertEqual(function, other)
            self.assertEqual(hash(function), hash(other))
        self.assertNotEqual(function, gjcut.family("gmic", "2/5"))


class Help(unittest.TestCase):
    CODE = """import gjcut
try:
    gjcut.call("show")
except gjcut.LibraryMissing as missing:
    print(missing)
"""

    def test_each_call_says_what_it_does(self):
        for name in gjcut.__all__:
            value = getattr(gjcut, name)
            if inspect.isfunction(value):
                self.assertIn(f"{name}(", value.__doc__, name)
                self.assertNotIn("The same", value.__doc__)

    def test_forks_are_spoken_of_where_a_caller_reads(self):
        self.assertIn("child of a fork", gjcut.__doc__)
        self.assertTrue("get_context" in (TOP / "docs/library.md").read_text())

    def test_a_missing_library_is_said_in_a_sentence(self):
        packages = str(Path(gjcut.__file__).parents[1])
        environment = {**os.environ, "GJCUT_LIBRARY": "/no/such/file", "PYTHONPATH": packages}
        done = subprocess.run(
            [sys.executable, "-c", self.CODE],
            env=environment,
            capture_output=True,
            text=True,
            check=False,
        )
        self.assertEqual((done.returncode, done.stderr), (0, ""))
        self.assertIn("there is no file /no/such/file", done.stdout)

    def test_a_repository_without_a_library_says_what_to_do(self):
        with tempfile.TemporaryDirectory() as folder:
            shutil.copytree(
                Path(gjcut.__file__).parent,
                Path(folder) / "python/gjcut",
                ignore=shutil.ignore_patterns("*.so"),
            )
            (Path(folder) / "crates/gj_library").mkdir(parents=True)
            environment = {**os.environ, "PYTHONPATH": str(Path(folder) / "python")}
            environment.pop("GJCUT_LIBRARY", None)
            done = subprocess.run(
                [sys.executable, "-c", self.CODE],
                env=environment,
                # Python would take the package of the directory that it stands in.
                cwd=folder,
                capture_output=True,
                text=True,
                check=False,
            )
        self.assertEqual((done.returncode, done.stderr), (0, ""))
        self.assertIn("tools/build/install", done.stdout)


class Room(unittest.TestCase):
    def assert_room(self, words, text, room):
        """The answer is whole, and not longer than the header says."""
        status, said = gjcut.call(words, text)
        self.assertEqual((status, said[-1]), (0, "\n"))
        self.assertLessEqual(len(said), room)
        return len(said)

    def test_the_longest_answers_have_room(self):
        zero = "gj-function 2\nf 1/1000\npoint 0 0\nend\n"
        self.assertGreater(self.assert_room("faces", zero, 28_100_000), 27_000_000)
        values = "".join(f"point {-2**20 + 1}/2147483647\n" for _ in range(1000))
        function = f"gj-function 1\norder 1000\nf 1/2\n{values}end\n"
        self.assert_room("show", function, 100_000)
        values = [f"{-2**20 + 1}/2147483647"] * 1000
        given = json.dumps({"order": 1000, "f": "1/2", "value": values})
        self.assert_room("show --json", given, 100_000)
        name = "x" * 250
        columns = ",".join(f"c:{name}{i}" for i in range(10))
        row = ",".join(
            ["2147483647"] + [f"{2**31 * (2**31 - 2) - i}/{2**31 - 1}" for i in range(9)]
        )
        rows = "".join(f"y{i},-{2**30}/2147483647,{row}\n" for i in range(1000))
        for command in ("cut", "mixed"):
            for rule in ("gj-rule 1\ngmic\nend\n", "gj-function 1\nfamily gmic 1/2\nend\n"):
                text = f"{rule}basic,rhs,{columns}\n{rows}"
                room = 304 * min(len(text) // 4 + 1, 10_000) + 352 * min(len(text) // 2, 100_000)
                self.assert_room(command, text, 100_000 + room)

    def test_an_answer_that_is_longer_than_the_room_that_is_kept(self):
        # -1/3 x + .. + s = 1/2: each column has the coefficient 2/3, and 2 s is 1 + 2/3 x + ..
        columns = [gjcut.Column(f"x{i:07}", i % 2 == 0, 0, None) for i in range(10_000)]
        entries = {column.name: "-1/3" for column in columns}
        constraint = gjcut.Constraint("c", entries, "<=", "1/2")
        cut = gjcut.safe_cut(columns, [constraint], [1], round=None)
        self.assertEqual(cut.entries, dict.fromkeys(entries, Fraction(4, 3)))
        self.assertGreater(len(cut.text), _library.KEPT_ROOM)
        self.assertTrue(cut.text.endswith("end\n"))


@unittest.skipUnless(shutil.which("cc"), "there is no C compiler")
class Page(unittest.TestCase):
    def test_the_sample_reads_long_names(self):
        page = (TOP / "docs/library.md").read_text()
        sample = re.search(r"```file mixed\.c\n(.*?)^```$", page, re.S | re.M)[1]
        library = _library.find()
        for length in (63, 64, 255):
            name = "x" * length
            with tempfile.TemporaryDirectory() as folder:
                source, program = Path(folder) / "mixed.c", Path(folder) / "mixed"
                source.write_text(sample.replace("x1,c:z1", f"{name},c:z1"))
                subprocess.run(
                    [
                        "cc",
                        f"-I{TOP / 'include'}",
                        str(source),
                        str(library),
                        f"-Wl,-rpath,{library.parent}",
                        "-o",
                        str(program),
                    ],
                    check=True,
                )
                done = subprocess.run([str(program)], capture_output=True, text=True, check=True)
            title, first = done.stdout.splitlines()[:2]
            found, value = first.split()
            self.assertEqual(
                (title, found, value[:6]), ("cut of x0", name, "0.4166"), length
            )


if __name__ == "__main__":
    unittest.main()
