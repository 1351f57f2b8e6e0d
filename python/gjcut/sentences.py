"""What a refusal means, and what to do: one table, from which that of docs/formats.md is made too
(`tools/pages/write_sentences`).

The program says which line and which reason; which of several sentences fits is guessed here from
that line and the text. The first that fits is taken, so the general one of each reason stands last.
Each has an input that causes it, which the tests try.
"""
import math
import re
from fractions import Fraction
from typing import Iterable, List, Optional, Tuple

from ._arguments import items, text as text_of
from ._derivation_sentences import DERIVATION_SENTENCES
from ._function_sentences import FUNCTION_SENTENCES
from ._other_sentences import OTHER_SENTENCES
from ._problem_sentences import PROBLEM_SENTENCES, WORDS
from ._sentence import Sentence, line_at_fault

__all__ = [
    "CAUSES", "RULES", "SENTENCES", "Sentence", "cause_in_words", "first_word", "is_derivation",
    "line_at_fault", "rule_in_words", "sentence_for", "told",
]  # fmt: skip

COMMAND_SENTENCES = [*FUNCTION_SENTENCES, *OTHER_SENTENCES]
SENTENCES = [*COMMAND_SENTENCES, *PROBLEM_SENTENCES, *DERIVATION_SENTENCES]
# What is said of a problem comes first where the command is `problem`, and nowhere else; so it is
# with derivations.
SENTENCES_OF_PROBLEMS = [*PROBLEM_SENTENCES, *COMMAND_SENTENCES]
SENTENCES_OF_DERIVATIONS = [*DERIVATION_SENTENCES, *COMMAND_SENTENCES]
# The first word of a text, behind lines that are skipped.
FIRST = re.compile(r"(?:[ \t]*(?:#.*)?\r?\n)*[ \t]*(\S*)")


def first_word(text: str) -> str:
    return FIRST.match(text_of(text, "text"))[1]


def is_derivation(text: str) -> bool:
    """Whether `check` reads the text as a derivation."""
    return first_word(text) in ("gj-derivation", "gj-function")


def sentence_for(words: str, text: str, answer: str) -> Optional[Sentence]:
    """The sentence about an answer, without the line break at its end, to the words over a text."""
    words, text = text_of(words, "words"), text_of(text, "text")
    answer, among = text_of(answer, "answer"), COMMAND_SENTENCES
    if words == WORDS:
        among = SENTENCES_OF_PROBLEMS
    elif words == "derive" or (words == "check" and is_derivation(text)):
        if _is_in_function(text, answer):
            # What is said of a function does not depend on what stands behind it.
            words = "minimal"
        else:
            among = SENTENCES_OF_DERIVATIONS
    return next((each for each in among if each.fits(words, text, answer)), None)


def _is_in_function(text: str, answer: str) -> bool:
    """Whether the line at fault is one of a function in front."""
    found = re.match(r"refused line (\d+) ", answer)
    if not found or first_word(text) != "gj-function":
        return False
    lines = text.split("\n")[: int(found[1]) - 1]
    return not any(line.split()[:1] == ["end"] for line in lines)


# What two statuses say for which the program has no line, or one word.
STATUSES = {
    6: ("there was no memory", "try again where more is free"),
    7: (
        "a number, or the proof of a function that jumps, passed its bound, and this function is "
        "not decided",
        "take a function of a smaller order, or with smaller denominators",
    ),
}


def told(words: str, text: str, status: int, answer: str) -> Optional[Tuple[str, str]]:
    """What an answer with this status means, and what to do, in plain words."""
    if status in STATUSES:
        return STATUSES[status]
    sentence = sentence_for(words, text, answer)
    if not sentence:
        return None
    means, do = map(_plain, sentence.of(answer))
    order = _order_reached(text, answer)
    return (means if order is None else f"{means}; here the order is {order:,}"), do


def _plain(cell: str) -> str:
    """A cell of the page without its links."""
    cell = re.sub(r"\[([^]]*)\]\(#[^)]*\)", r"\1 (docs/formats.md)", cell)
    return re.sub(r"\[([^]]*)\]\(([^)#]*)[^)]*\)", r"docs/\2", cell)


def _order_reached(text: str, answer: str) -> Optional[int]:
    """The order of a function at the line at which it is above the limit."""
    found = re.fullmatch(r"refused line (\d+) pieces", answer)
    if not found:
        return None
    lines = [line.split() for line in text.split("\n")[: int(found[1])]]
    if lines[-1][:2] == ["family", "two-slope"]:
        return len(lines[-1][3])
    places: List[Fraction] = []
    for words in lines:
        if words[:1] in (["f"], ["point"]):
            places.append(Fraction(words[1]))
        elif words[:1] == ["family"]:
            places.append(Fraction(words[2]))
    return math.lcm(*(place.denominator for place in places))


# What stands against a step of a derivation; `{}` is what the cause is about.
CAUSES = {
    "sign": "the multiplier of {} has the wrong sign: a linear step takes a `<=` times a number of "
    "at most 0, and a `>=` or a step times one of at least 0",
    "free": "{} has no bound, and its coefficient in the sum is neither 0 nor, in a whole column, "
    "whole",
    "integral": "the right side of the sum is whole, with its columns turned to their bounds",
    "other": "the fractional part of the right side of the sum is not the f of the function",
    "bound": "the coefficient of {} would have to move, to the one that is claimed or to the grid, "
    "and {} lacks the bound for that: the lower one moves it up, the upper one down",
    "right": "with these terms the right side is at most {}",
    "wide": "a number would have more than 127 bits",
    "lost": "it names {}, which shows nothing",
}


def cause_in_words(words: Iterable[str]) -> str:
    """What stands against a step, for the words of an answer that stand behind its line."""
    cause, *about = items(words, "a list of words", "words")
    if cause not in CAUSES or len(about) != min(CAUSES[cause].count("{}"), 1):
        raise ValueError(f"words: there is no cause {' '.join([cause, *about])!r}")
    return CAUSES[cause].format(*about * 2)


# What a rule of the checker asks, for a proof that is rejected.
RULES = {
    "minimal": "the function is not minimal",
    "continuous": "the function jumps",
    "point": "at the points of this line the function is not as the line says",
    "cover": "the face is not additive, or does not cover this interval",
    "row": "the two places and their sum do not fulfil the equation of this row",
    "reduce": "there is no earlier row with its pivot in this column, or the row is 0 there",
    "size": "a number of this step is too large",
    "pivot": "the row is not 0 before this column, or 0 at it, or the column has a pivot already",
    "rank": "there are fewer rows than components, so the slopes are not determined",
    "scale": "the order of the halves is no multiple of the function's, or their scale is wrong",
    "range": "a value of a half is below 0 or above 1",
    "average": "the two values do not have the average that the function has there",
    "first": "the first half is not minimal",
    "second": "the second half is not minimal",
    "same": "the two halves are the same",
    "fraction": "the right side is not of this kind: a cut asks for the fractional part f, "
    "`integral` for a whole number, `other` for another fractional part",
    "limit": "a number of the row is above its limit",
    "name": "this name stands in the row already",
    "value": "this coefficient is not the value of the function at the entry",
}
# The same of a text 3, where it says something else.
RULES_WITH_JUMPS = {
    "cover": "this interval has a line before, or the face does not cover it: by a triangle with "
    "three limits 0 that projects on it, or by an edge with limits 0 at both ends that links it to "
    "an interval with a line",
    "row": "the limit of the slack that this row names is not 0",
    "rank": "there are fewer rows than unknowns, so values, limits and slopes are not determined",
    "range": "a value or a limit of a half is below 0 or above 1",
    "average": "two values or limits of the halves have not the average of the function there",
}


def rule_in_words(rule: str, text: str) -> str:
    """What a rule of the checker asks that fails in a proof text."""
    name = text_of(rule, "rule")
    if name not in RULES:
        raise ValueError(f"rule: there is no rule {name!r}")
    own = RULES_WITH_JUMPS if text_of(text, "text").startswith("gj-proof 3\n") else RULES
    return own.get(name, RULES[name])
