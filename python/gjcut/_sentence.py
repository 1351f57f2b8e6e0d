"""A sentence about a refusal, and when it fits."""
import csv
import io
import re
from typing import List, NamedTuple, Optional, Tuple

from ._arguments import text as text_of


class Sentence(NamedTuple):
    """What is seen, what it means and what to do, in the words of the page; when it fits; and an
    input that causes it."""

    see: str
    means: str
    do: str
    # The words of a command, an input (written out so many times), and what is written then.
    words: str
    input: str
    answer: str
    # Patterns: of the answer, of the words, of the line or record at fault, of the significant line
    # before it and that line, and of the whole text.
    when: str
    command: str = ""
    line: str = ""
    around: str = ""
    text: str = ""
    # Whether the line at fault comes after the last one.
    is_past: Optional[bool] = None
    times: int = 1

    def fits(self, words: str, text: str, answer: str) -> bool:
        """Whether this sentence is about that answer to the words over the text."""
        if not re.fullmatch(self.when, answer):
            return False
        before, line, is_past = line_at_fault(text, answer)
        if self.is_past not in (None, is_past):
            return False
        around = f"{before}\n{line}"
        found = [(self.command, words), (self.line, line), (self.around, around), (self.text, text)]
        return all(re.search(pattern, place, re.M) for pattern, place in found)


    def of(self, answer: str) -> Tuple[str, str]:
        """What that answer means and what to do. A word of capitals that stands for a word of the
        answer, as X in `not continuous X`, is that word."""
        shown = re.match("`([^`]*)`", self.see)
        pairs = zip(shown[1].split(), answer.split()) if shown else ()
        meant = {name: word for name, word in pairs if re.fullmatch("[A-Z]", name)}
        told = [
            re.sub(r"\b[A-Z]\b", lambda found: meant.get(found[0], found[0]), words)
            for words in (self.means, self.do)
        ]
        return told[0], told[1]


def line_at_fault(text: str, answer: str) -> Tuple[str, str, bool]:
    """The significant line before the one at fault, that line, and whether it comes after the last
    one; for a record likewise."""
    text, answer = text_of(text, "text"), text_of(answer, "answer")
    found = re.match(r"(refused line|rejected line|refused record) (\d+)", answer)
    if not found:
        return "", "", False
    lines = records_of(text) if found[1] == "refused record" else text.split("\n")
    at = int(found[2]) - 1
    significant = (line for line in reversed(lines[:at]) if not re.match(r"\s*(#|$)", line))
    before = next(significant, "")
    is_past = at >= len(lines) or at == len(lines) - 1 and not lines[at].strip()
    return before.rstrip("\r"), lines[at].rstrip("\r") if at < len(lines) else "", is_past


def records_of(text: str) -> List[str]:
    """The records of the tableau after the line `end`, each as one line."""
    lines = text.split("\n")
    at = next((i for i, line in enumerate(lines) if line.split() == ["end"]), len(lines))
    table = "\n".join(lines[at + 1 :])
    records = csv.reader(io.StringIO(table.replace("\0", " ")))
    return [",".join(record).replace("\n", " ") for record in records if record]
