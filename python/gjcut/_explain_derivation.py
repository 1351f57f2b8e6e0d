"""What a derivation shows, line by line, in words."""
from typing import Dict, Iterable, List, Optional, Tuple

from ._arguments import text as text_of

SUMS = {
    "linear": "the sum of what follows",
    "gmic": "the mixed-integer cut of the sum of what follows",
    "function": "the cut of the sum of what follows, by the function in front",
}


def sum_in_words(terms: Iterable[Tuple[str, str]]) -> str:
    """The sum of columns, each times its coefficient."""
    shown: List[str] = []
    for name, value in terms:
        sign, size = ("-", value[1:]) if value.startswith("-") else ("+", value)
        shown += [sign, name if size == "1" else f"{size} {name}"]
    front = "-" if shown[:1] == ["-"] else ""
    return front + " ".join(shown[1:]) if shown else "0"


def lines_of(text: str) -> List[str]:
    """The lines of a text, as the program parts them."""
    return text_of(text, "text").rstrip("\n").split("\n")


class DerivationReader:
    """The words of one line after another."""

    def __init__(self, text: str):
        lines = [line.split() for line in lines_of(text)]
        self.lines, self.at, self.is_in_front, self.name = lines, 0, False, ""
        # The inequality of each constraint and of each step, by its name.
        self.known: Dict[str, str] = {}
        for i, words in enumerate(lines):
            if words[:1] == ["constraint"] and len(words) == 4:
                self.known[words[1]] = self.inequality(i, "entry", words[2], words[3])
            if words[:1] == ["step"] and len(words) == 3:
                self.name = words[1]
            if words[:1] == ["claim"] and len(words) == 2:
                self.known[self.name] = self.inequality(i, "term", ">=", words[1])

    def inequality(self, at: int, kind: str, sense: str, right: str) -> str:
        """That of the lines of this kind behind a line."""
        parts = []
        for words in self.lines[at + 1 :]:
            if words and not words[0].startswith("#"):
                if words[0] != kind or len(words) != 3:
                    break
                parts.append((words[1], words[2]))
        return f"{sum_in_words(parts)} {sense} {right}"

    def words(self, _line: str) -> str:
        """What the next line says."""
        words, self.at = self.lines[self.at], self.at + 1
        if not words or words[0].startswith("#"):
            return "this line is skipped"
        if words[0] == "gj-function" or self.is_in_front:
            self.is_in_front = words[0] != "end"
            return "the function of the steps by the rule `function`"
        found = getattr(self, "of_" + words[0].replace("-", "_"), None)
        return found(*words[1:]) if found else ""

    def of_gj_derivation(self, _version: str) -> str:
        return "a program, and steps that each claim an inequality"

    def of_column(self, name: str, kind: str, lower: str, upper: str) -> str:
        number = "a whole number" if kind == "whole" else "a number"
        bounds: List[Optional[str]] = [
            f"at least {lower}" if lower != "-" else None,
            f"at most {upper}" if upper != "-" else None,
        ]
        shown = " and ".join(each for each in bounds if each)
        return f"{name} is {number}{' of ' + shown if shown else ', without bounds'}"

    def of_constraint(self, name: str, _sense: str, _right: str) -> str:
        return f"a constraint: {self.known[name]}"

    def of_entry(self, name: str, value: str) -> str:
        return f"{value} times {name}"

    of_term = of_entry

    def of_step(self, name: str, rule: str) -> str:
        self.name = name
        return SUMS[rule]

    def of_by(self, name: str, multiplier: str) -> str:
        return f"{multiplier} times {self.known[name]}, which is {name}"

    def of_upper(self, name: str) -> str:
        return f"{name} is turned by its upper bound"

    def of_times(self, factor: str) -> str:
        return f"the inequality is multiplied by {factor}"

    def of_claim(self, _right: str) -> str:
        return f"it claims {self.known[self.name]}"

    def of_end(self) -> str:
        return "the end of the derivation"


def last_claim(text: str) -> Tuple[str, str]:
    """The name of the last step, and what it claims; empty if there is none."""
    reader = DerivationReader(text)
    return reader.name, reader.known.get(reader.name, "")
