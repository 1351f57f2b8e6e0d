"""`tools/build/install --built` in a copy of the repository, with stand-ins for what is built and
without the kit: what is installed, and what is told of each thing that is missing."""
import ctypes
import json
import os
import shutil
import subprocess
import sys
import tempfile
import unittest
from pathlib import Path

TOP = Path(__file__).resolve().parents[2]
ELF, ARCHIVE = b"\x7fELF, a stand-in", b"!<arch>\n"
COMPILER = next(filter(None, map(shutil.which, ("cc", "gcc", "clang"))), None)
HEADERS = {"include/gjcut.h", "include/gjcut_solver.h", "lib/pkgconfig/gjcut.pc"}
LIBRARIES = {"lib/libgjcut.a", "lib/libgjcut.so"}
NOTHING = "install: nothing is installed; ask whoever has the kit for what is built, or name it by " \
    "options\n"


def commands():
    """Each command of the path but `rt`, by its name."""
    found = {"python3": sys.executable}
    for place in os.environ["PATH"].split(os.pathsep):
        for name in os.listdir(place) if os.path.isdir(place) else ():
            found.setdefault(name, os.path.join(place, name))
    found.pop("rt", None)
    return found


def linked(folder, found):
    """The folder, with links to these commands."""
    folder.mkdir()
    for name, command in found.items():
        (folder / name).symlink_to(command)
    return str(folder)


class Installing(unittest.TestCase):
    @classmethod
    def setUpClass(cls):
        folder = tempfile.TemporaryDirectory()
        cls.addClassCleanup(folder.cleanup)
        cls.commands = commands()
        cls.path = linked(Path(folder.name) / "bin", cls.commands)

    def setUp(self):
        folder = tempfile.TemporaryDirectory()
        self.addCleanup(folder.cleanup)
        self.folder = Path(folder.name)
        self.top, self.prefix = self.folder / "a copy", self.folder / "a prefix"
        for name in ("tools/build", "include", "python/gjcut"):
            shutil.copytree(TOP / name, self.top / name, ignore=shutil.ignore_patterns("__pycache__"))
        shutil.copy(TOP / "python/pyproject.toml", self.top / "python")

    def file(self, name, data):
        """A file below the copy."""
        path = self.top / name
        path.parent.mkdir(parents=True, exist_ok=True)
        path.write_bytes(data)
        return str(path)

    def built(self):
        """Stand-ins in the folders where a build leaves its files."""
        self.file("crates/gjcut/out/gjcut", ELF)
        self.file("crates/gj_library/out/libgjcut.a", ARCHIVE)
        self.file("crates/gj_library/out/libgjcut.so", ELF)

    def run_install(self, *words, prefix=True, path=None):
        home = str(self.folder / "home")
        environment = {**os.environ, "PATH": path or self.path, "HOME": home}
        environment.pop("KIT", None)
        where = ["--prefix", str(self.prefix)] if prefix else []
        command = [str(self.top / "tools/build/install"), *words, *where]
        return subprocess.run(
            command, env=environment, cwd=self.folder, capture_output=True, text=True, check=False
        )

    def installed(self):
        """The files below the prefix but those of the Python package, and whether that is there."""
        files = [path for path in self.prefix.rglob("*") if path.is_file()]
        names = {str(path.relative_to(self.prefix)) for path in files}
        package = {name for name in names if "/site-packages/" in name}
        return names - package, bool(package)

    def refused(self, words, status, said, prefix=True):
        done = self.run_install(*words, prefix=prefix)
        self.assertEqual((done.returncode, done.stdout), (status, ""), done.stderr)
        self.assertEqual(done.stderr, said)
        self.assertFalse(self.prefix.exists() or (self.folder / "home").exists())

    def test_words(self):
        for words, said in (
            (["--prefix"], "--prefix needs a folder behind it"),
            (["--prefix="], "--prefix needs a folder behind it"),
            (["--prefix", ""], "--prefix needs a folder behind it"),
            (["--prefix", "--built"], "--prefix needs a folder behind it"),
            (["--built", "--program"], "--program needs a file behind it"),
            (["--built", "--shared="], "--shared needs a file behind it"),
            (["--prefix", "a", "--prefix=b"], "--prefix stands twice"),
            (["--built", "--library=a", "--library", "b"], "--library stands twice"),
            (["--built", "--built"], "--built stands twice"),
            (["--program", "a"], "files that are built are named with --built"),
            (["--build"], "there is no word --build"),
            (["a"], "there is no word a"),
            ([""], "there is no word "),
        ):
            self.refused(words, 2, f"install: {said} (--help tells the words)\n", prefix=False)
        done = self.run_install("--help", prefix=False)
        self.assertEqual((done.returncode, done.stderr), (0, ""))
        self.assertIn("usage: tools/build/install", done.stdout)

    def test_what_is_built(self):
        self.built()
        done = self.run_install("--built")
        self.assertEqual((done.returncode, done.stderr), (0, ""))
        lines = done.stdout.splitlines()
        self.assertEqual(lines[0], f"installed in {self.prefix}:")
        self.assertEqual(lines[1], "  bin/gjcut    the program")
        files = "lib/libgjcut.a, lib/libgjcut.so, include/gjcut.h, lib/pkgconfig/gjcut.pc"
        self.assertEqual(lines[2], f"  {files}")
        self.assertEqual(self.installed(), ({"bin/gjcut", *LIBRARIES, *HEADERS}, True))
        self.assertTrue(os.access(self.prefix / "bin/gjcut", os.X_OK))
        (record,) = self.prefix.rglob("build.json")
        self.assertEqual(json.loads(record.read_text())["kit"], "unknown")

    def test_the_proved_code_need_not_be_there_and_needs_no_kit(self):
        self.built()
        for newer in (False, True):
            code = self.file("crates/gj_library/out/libgj_library.a", ARCHIVE)
            os.utime(code, (2**31, 2**31) if newer else (0, 0))
            done = self.run_install("--built")
            self.assertEqual((done.returncode, done.stderr), (0, ""))
        self.assertEqual((self.prefix / "lib/libgjcut.so").read_bytes(), ELF)

    def test_what_is_missing_of_the_build(self):
        out = f"{self.top}/crates/gj_library/out"
        no_archive = f"build_library: there is no {out}/libgjcut.a"
        no_program = f"install: there is no program {self.top}/crates/gjcut/out/gjcut\n"
        self.refused(["--built"], 1, f"{no_archive}\n{no_program}{NOTHING}")
        self.file("crates/gj_library/out/libgj_library.a", ARCHIVE)
        no_archive += ", and no kit, which makes it of libgj_library.a"
        self.refused(["--built"], 1, f"{no_archive}\n{no_program}{NOTHING}")
        self.built()
        os.unlink(self.top / "crates/gjcut/out/gjcut")
        self.refused(["--built"], 1, no_program + NOTHING)
        no_kit = "install: there is no rt on the path, which proves and builds; with --built it " \
            "takes what is built\n"
        self.refused([], 1, no_kit)

    def test_files_by_options(self):
        self.built()
        program, archive = self.file("p", ELF), self.file("l", ARCHIVE)
        shared, at = self.file("s", ELF), "a copy/s"
        for words, files, has_package in (
            (["--program", program], {"bin/gjcut"}, False),
            (["--shared", at], {"lib/libgjcut.so", *HEADERS}, True),
            ([f"--library={archive}", "--shared", shared], {*LIBRARIES, *HEADERS}, True),
        ):
            shutil.rmtree(self.prefix, ignore_errors=True)
            done = self.run_install("--built", *words)
            self.assertEqual((done.returncode, done.stderr), (0, ""))
            self.assertEqual(self.installed(), (files, has_package))

    def test_files_at_fault(self):
        program, archive = self.file("p", ELF), self.file("l", ARCHIVE)
        words = ["--built", "--program", "none", "--library", "no", "--shared", str(self.folder)]
        lines = [
            "there is no program none",
            "there is no static library no",
            f"the shared library {self.folder} is no file that can be read",
        ]
        said = "".join(f"install: {line}\n" for line in lines)
        self.refused(words, 1, said + NOTHING)
        empty = self.file("empty", b"")
        words = ["--built", "--program", archive, "--library", program, "--shared", empty]
        lines = [
            f"{archive} is no program, by its first bytes",
            f"{program} is no static library, by its first bytes",
            f"{empty} is no shared library, by its first bytes",
        ]
        said = "".join(f"install: {line}\n" for line in lines)
        self.refused(words, 1, said + NOTHING)

    @unittest.skipUnless(COMPILER and shutil.which("ar"), "there is no C compiler")
    def test_a_compiler_makes_the_shared_library(self):
        source, made = self.folder / "answer.c", self.folder / "answer.o"
        source.write_text("int gjcut_answer(void) { return 7; }\nint other(void) { return 0; }\n")
        subprocess.run([COMPILER, "-c", "-fPIC", str(source), "-o", str(made)], check=True)
        archive = self.folder / "libgjcut.a"
        subprocess.run(["ar", "qc", str(archive), str(made)], check=True)
        self.file("crates/gj_library/out/libgjcut.a", archive.read_bytes())
        self.file("crates/gjcut/out/gjcut", ELF)
        for words in (["--library", str(archive)], []):
            shutil.rmtree(self.prefix, ignore_errors=True)
            done = self.run_install("--built", *words)
            self.assertEqual((done.returncode, done.stderr), (0, ""))
            library = ctypes.CDLL(str(self.prefix / "lib/libgjcut.so"))
            self.assertEqual(library.gjcut_answer(), 7)
            self.assertFalse(hasattr(library, "other"))

    def test_without_a_compiler_or_python(self):
        self.built()
        os.unlink(self.top / "crates/gj_library/out/libgjcut.so")
        found = dict(self.commands)
        for command in ("cc", "gcc", "clang"):
            found.pop(command, None)
        done = self.run_install("--built", path=linked(self.folder / "bin", found))
        said = "build_library: no C compiler, so no shared library\n"
        self.assertIn(said, done.stderr)
        last = "install: without a shared library there is no Python package\n"
        self.assertTrue(done.stderr.endswith(last))
        files = {"bin/gjcut", "lib/libgjcut.a", *HEADERS}
        self.assertEqual((done.returncode, self.installed()), (0, (files, False)))
        (self.folder / "bin/python3").unlink()
        words, path = ["--shared", self.file("s", ELF)], str(self.folder / "bin")
        done = self.run_install("--built", *words, path=path)
        no_python = "install: there is no python3, and so no Python package\n"
        self.assertEqual((done.returncode, done.stderr), (0, no_python))


if __name__ == "__main__":
    unittest.main()
