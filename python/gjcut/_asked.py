"""The commands of the library; what is refused is an error that says what it means and what to do.
"""
from typing import Optional, Union

from ._functions import Function, function as a_function
from ._library import Answer, call
from ._refusals import WORDS, Place, Places, Refused, no_place, place_of
from .sentences import told

Text = Union[str, bytes]
# With the flag `--jumps` these answer functions that jump too. Of a continuous one they say what
# they say without it, so nobody has to look first.
EXTREME, FACES = "extreme --jumps", "faces --jumps"


def done(words: str, text: Text, places: Places = no_place, asked: Optional[str] = None) -> str:
    """What the command writes. A refusal is at a place in the text, or, of the words, at the
    argument `asked`."""
    answer = call(words, text)
    if answer.status:
        asked_at = Place(asked) if asked and answer.status == WORDS else None
        raise refused(words, text, answer, place_of(answer.text, places) or asked_at)
    return answer.text


def of_function(words: str, function: Function, asked: Optional[str] = None) -> str:
    """What the command writes of a function."""
    text = a_function(function).text
    return done(words, text, lambda _kind, _at, _reason: Place("function"), asked)


def refused(words: str, text: Text, answer: Answer, place: Optional[Place] = None) -> Refused:
    """The error about an answer."""
    given = text if isinstance(text, str) else text.decode("utf-8", "replace")
    parts = told(words, given, answer.status, answer.text.strip())
    return Refused(answer.status, answer.text, place, "; ".join(parts) if parts else None)
