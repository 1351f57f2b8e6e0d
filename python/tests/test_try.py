"""`tools/try` over a stand-in for `rt`, which runs the library in place of an unproved build of the
program."""
import os
import re
import subprocess
import sys
import tempfile
import unittest
from pathlib import Path

import gjcut
from gjcut import _library

TOP = Path(__file__).resolve().parents[2]
# What `rt try --cases FOLDER` prints: on standard output each case, on standard error how it ended.
STAND_IN = """#!{python}
import os, sys
import gjcut
folder = sys.argv[sys.argv.index("--cases") + 1]
for name in sorted(name for name in os.listdir(folder) if not name.endswith(".args")):
    with open(os.path.join(folder, name), "rb") as file:
        data = file.read()
    with open(os.path.join(folder, name + ".args")) as file:
        words = file.read().split()
    status, said = gjcut.call(" ".join(words), data)
    print(f"== {{name}}\\n{{said}}{wrong}", end="")
    print(f"case={{name}} run=ended status={{status}} runners=1 proved=no", file=sys.stderr)
print("cases=1 ended=1 fault=0 differs=0 no-answer=0 proved=no", file=sys.stderr)
"""


class Try(unittest.TestCase):
    def tried(self, *words, wrong=""):
        with tempfile.TemporaryDirectory() as folder:
            stand_in = Path(folder) / "rt"
            stand_in.write_text(STAND_IN.format(python=sys.executable, wrong=wrong))
            stand_in.chmod(0o755)
            environment = {
                **os.environ,
                "PATH": folder + os.pathsep + os.environ["PATH"],
                "PYTHONPATH": str(Path(gjcut.__file__).parents[1]),
                "GJCUT_LIBRARY": str(_library.find()),
            }
            command = [sys.executable, str(TOP / "tools/try"), *(words or ["--no-tests"])]
            return subprocess.run(
                command, env=environment, cwd=TOP, capture_output=True, text=True, check=False
            )

    def test_all_examples_are_compared(self):
        done = self.tried()
        found = re.findall(r"(\d+) examples answered as they must, 0 otherwise", done.stdout)
        self.assertEqual(len(found), 1, done.stdout[-2000:] + done.stderr[-2000:])
        self.assertEqual(done.returncode, 0)
        self.assertGreater(int(found[0]), 410)

    def test_another_text_is_told(self):
        done = self.tried(wrong="x")
        self.assertEqual(done.returncode, 1)
        self.assertIn("0 examples answered as they must", done.stdout)
        self.assertIn("wanted: status=0, and another text", done.stdout)

    def test_files_of_a_callers_own(self):
        five, six = "examples/extreme/five_pieces/input", "examples/minimal/asymmetric_point/input"
        done = self.tried("--", "extreme", five, six, "no_such_file")
        lines = done.stdout.splitlines()
        self.assertIn("without proofs for 2 files; that takes minutes", lines[0])
        self.assertEqual(
            lines[1:3],
            [
                f"== {five}: nothing of this answer is proved",
                "extreme: the function is minimal, and no average of two other valid functions",
            ],
        )
        self.assertEqual(lines[3], f"== {six}: nothing of this answer is proved")
        self.assertTrue(lines[4].startswith("not minimal: it is not symmetric, since its values"))
        self.assertEqual(lines[5:], ["no_such_file: it cannot be read: No such file or directory"])
        self.assertEqual((done.returncode, done.stderr), (4, ""))
        done = self.tried("--", "extreme", "--proof", five)
        proof = (TOP / "examples/extreme/five_pieces/output").read_text()
        self.assertTrue(done.stdout.endswith("proved\n" + proof))
        done = self.tried("--", "times", "2", "1", five)
        self.assertEqual(done.returncode, 0)
        self.assertIn("\ngj-function 1\norder 10\n", done.stdout)
        done = self.tried("--", "extreme", "examples/minimal/breaks_descending/input")
        self.assertEqual(done.returncode, 3)
        self.assertIn("Sort the lines `point` by their places.", done.stdout)


if __name__ == "__main__":
    unittest.main()
