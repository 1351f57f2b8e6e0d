"""The shared library: where it is found, and the call that it has."""
import ctypes
import functools
import os
import subprocess
from pathlib import Path
from typing import NamedTuple, Union

from . import _arguments

NO_ROOM = 5
HERE = Path(__file__).resolve().parent
NAME = "libgjcut.so"
# The repository, if this file stands in one.
TOP = HERE.parents[1]
# An output that is kept between calls has this many bytes: more than most answers have.
KEPT_ROOM = 1 << 17
MISSING = (
    "the library of gjcut is not here: `tools/build/install` at the top of the repository "
    "builds and installs it"
)


class LibraryMissing(OSError):
    """There is no shared library, and none can be made; the text says what to do."""


class Answer(NamedTuple):
    """The status of a call, and what the program writes."""

    status: int
    text: str


def packed() -> Path:
    """The shared library of the repository, made anew where the proved code is newer."""
    folder = TOP / "crates/gj_library/out"
    code, archive, made = (folder / name for name in ("libgj_library.a", "libgjcut.a", NAME))
    if not any(path.exists() for path in (code, archive, made)):
        how = "without installing, `tools/build/build_library` builds it"
        raise LibraryMissing(f"{MISSING}; {how} (there is no {archive})")
    is_old = code.exists() and made.exists() and made.stat().st_mtime <= code.stat().st_mtime
    if is_old or not made.exists():
        words = [str(TOP / "tools/build/build_library"), "--pack"]
        done = subprocess.run(words, stderr=subprocess.PIPE, text=True, check=False)
        if done.returncode or not made.exists():
            raise LibraryMissing(f"the shared library could not be made:\n{done.stderr}")
    return made


def find() -> Path:
    """The shared library: the file of the variable GJCUT_LIBRARY, or one beside this file, or that
    of the prefix, or that of the repository."""
    named = os.environ.get("GJCUT_LIBRARY")
    if named:
        if os.path.exists(named):
            return Path(named)
        raise LibraryMissing(f"there is no file {named}, which GJCUT_LIBRARY names")
    for path in (HERE / NAME, HERE.parents[2] / NAME):
        if path.exists():
            return path
    if (TOP / "crates/gj_library").is_dir():
        return packed()
    raise LibraryMissing(MISSING)


@functools.lru_cache(maxsize=None)
def _answer():
    """The function of the library."""
    path = find()
    try:
        function = ctypes.CDLL(str(path)).gjcut_answer
    except AttributeError:
        raise LibraryMissing(f"{path} has no gjcut_answer: it is no library of gjcut") from None
    sized = [ctypes.c_char_p, ctypes.c_size_t]
    function.argtypes = [*sized * 3, ctypes.POINTER(ctypes.c_size_t)]
    function.restype = ctypes.c_uint8
    return function


# Outputs that no call uses now. A call takes one and puts it back, so that no two calls have one at
# a time.
_free: list = []


def call(words: str, text: Union[str, bytes] = "") -> Answer:
    """The answer to the words of a command, with one blank between two, over a text. So
    `call("problem", text)` gives the cuts of a whole problem text.

    >>> call("check", "gj-proof 2")
    Answer(status=3, text='refused line 1 form\\n')
    >>> call("times 3", "")
    Answer(status=2, text='words refused\\n')
    """
    command, given = _arguments.text(words, "words").encode(), _bytes(text)
    sized, function = (command, len(command), given, len(given)), _answer()
    try:
        output, written = _free.pop()
    except IndexError:
        output, written = ctypes.create_string_buffer(KEPT_ROOM), ctypes.c_size_t()
    used = output
    status = function(*sized, used, KEPT_ROOM, written)
    if status == NO_ROOM:
        # Now `written` is the length of the whole answer.
        enough = written.value
        used = ctypes.create_string_buffer(enough)
        status = function(*sized, used, enough, written)
    said = ctypes.string_at(used, written.value).decode()
    _free.append((output, written))
    return Answer(status, said)


def _bytes(text: Union[str, bytes]) -> bytes:
    if isinstance(text, bytes):
        return text
    return _arguments.text(text, "text", wanted="a str, or bytes").encode()
