"""The crates of crates.txt by their layers, for the tools that print or compare them."""
from __future__ import annotations

import os
import re
from typing import NamedTuple

TOP = os.path.abspath(os.path.join(os.path.dirname(__file__), ".."))


class Layer(NamedTuple):
    """A layer: its name, what is said of it, and its crates, each after those that it stands on."""

    name: str
    says: str
    crates: list[str]


def text_of(*path: str) -> str:
    with open(os.path.join(TOP, *path), encoding="utf-8") as file:
        return file.read()


def layers(text: str) -> list[Layer]:
    """The layers of the text of crates.txt: a comment with its crates directly below."""
    found = []
    for block in re.split(r"\n\s*\n", text):
        crates = re.findall(r"^(\w+)(?: staticlib)?:", block, re.M)
        comment = " ".join(line.lstrip("# ") for line in block.splitlines() if line.startswith("#"))
        if crates:
            name, says = re.fullmatch(r"([^:.]*)[:.]?\s*(.*)", comment).groups()
            found.append(Layer(name, says[:1].upper() + says[1:], crates))
    return found
