"""A report on functions as one page of HTML: pictures, verdicts and proofs in words, without
scripts, and without anything from elsewhere."""
import base64
import re
from html import escape
from typing import Dict, Iterator, NamedTuple, Optional, Sequence, Tuple

from . import _plot
from ._functions import Function
from ._verdicts import Verdict
from .explain import explained, function_in_words, violation_in_words

# More lines than these are folded.
MOST_LINES, MOST_BREAKPOINTS = 80, 40
# Pictures that are narrow have letters of the size of the text, also on a phone.
PICTURE_WIDTH = 3.8
# The colours of pictures, on a light page and on a dark one.
THEME: Dict[str, Tuple[str, str]] = {
    _plot.INK: ("ink", "#e8e8e8"),
    _plot.SOFT: ("soft", "#777777"),
    _plot.FAINT: ("faint", "#383838"),
    _plot.PAPER: ("paper", "#16181a"),
    _plot.ALERT: ("alert", "#ff6b6b"),
    **{
        colour: (f"c{i}", dark)
        for i, (colour, dark) in enumerate(
            zip(
                _plot.COLOURS,
                ("#5cb3f0", "#ff9a5c", "#3fcf9d", "#e08fcb", "#e8c34a", "#a3a3ff", "#cfa091"),
            )
        )
    },
}
STYLE = """
:root { color-scheme: light dark; --muted: #595959; --line: #d8d8d8; --panel: #f5f5f3; %s }
@media (prefers-color-scheme: dark) {
  :root { --muted: #b0b0b0; --line: #3c3f42; --panel: #202326; %s }
}
* { box-sizing: border-box; }
body { margin: 0 auto; max-width: 66rem; padding: 1rem; background: var(--paper);
  color: var(--ink); font: 1rem/1.5 system-ui, sans-serif; overflow-wrap: anywhere; }
h1 { font-size: 1.6rem; margin: 0.5rem 0; }
h2 { font-size: 1.3rem; margin: 2.5rem 0 0.5rem; padding-top: 1rem;
  border-top: 1px solid var(--line); }
h3 { font-size: 1.05rem; margin: 1.5rem 0 0.25rem; }
p, ol, dl, pre { margin: 0.5rem 0; }
a { color: var(--c0); }
code, pre { font: 0.9em/1.45 ui-monospace, monospace; }
pre { background: var(--panel); padding: 0.75rem; overflow-x: auto; overflow-wrap: normal; }
figure { margin: 0; }
figure svg { display: block; width: 100%%; height: auto; max-width: 34rem; margin: 0 auto; }
figcaption { color: var(--muted); font-size: 0.9rem; }
.pictures { display: grid; gap: 1.5rem; margin: 1rem 0;
  grid-template-columns: repeat(auto-fit, minmax(min(100%%, 22rem), 1fr)); }
@media (min-width: 48rem) { .pictures figure:nth-child(2) { grid-row: span 2; } }
.verdict { background: var(--panel); border-left: 4px solid var(--c0); padding: 0.6rem 0.8rem;
  font-weight: 600; white-space: pre-line; }
.refused { border-color: var(--alert); font-weight: normal; }
.of { color: var(--muted); }
table { border-collapse: collapse; }
.wide { overflow-x: auto; }
th, td { padding: 0.15rem 0.9rem 0.15rem 0; text-align: left; vertical-align: top; }
th { color: var(--muted); font-weight: normal; }
tr + tr { border-top: 1px solid var(--line); }
.proof { padding-left: 3.5rem; }
.proof li::marker { color: var(--muted); font-size: 0.85em; }
.proof li { border-top: 1px solid var(--line); padding: 0.2rem 0; }
.proof li > span { display: block; color: var(--muted); }
summary { cursor: pointer; color: var(--c0); }
@media (min-width: 48rem) {
  .proof li > code { display: inline-block; width: 32%%; vertical-align: top; padding-right: 1rem; }
  .proof li > span { display: inline-block; width: 67%%; vertical-align: top; }
}
@media print { details > * { display: block; } }
"""
CLAIMS = {
    "minimal": "π is minimal",
    "extreme": "π is extreme: minimal, and no average of two other valid functions",
    "not-extreme": "π is minimal, and the average of two other minimal functions, which the text "
    "has",
}


class Entry(NamedTuple):
    """A file: its name, what is said of it in words, and, if it is no refusal, the function, the
    verdict, and what `check` says of the proof."""

    name: str
    said: str
    function: Optional[Function] = None
    verdict: Optional[Verdict] = None
    judged: str = ""


def page_of(entries: Sequence[Entry], built: Dict[str, str], is_clone: bool) -> str:
    """The page."""
    names = ", ".join(entry.name for entry in entries)
    return "\n".join(
        [
            "<!DOCTYPE html>",
            '<html lang="en">',
            "<head>",
            '<meta charset="utf-8">',
            '<meta name="viewport" content="width=device-width, initial-scale=1">',
            f"<title>gjcut: {escape(names)}</title>",
            f"<style>{_style()}</style>",
            "</head>",
            "<body>",
            "<h1>Report of gjcut</h1>",
            *_head(entries),
            *(line for i, entry in enumerate(entries, 1) for line in _section(i, entry, built)),
            *_foot(built, is_clone),
            "</body>",
            "</html>",
            "",
        ]
    )


def _style() -> str:
    light = " ".join(f"--{name}: {colour};" for colour, (name, _) in THEME.items())
    dark = " ".join(f"--{name}: {colour};" for name, colour in THEME.values())
    return STYLE % (light, dark)


def _head(entries: Sequence[Entry]) -> Iterator[str]:
    if len(entries) > 1:
        yield '<div class="wide"><table><tr><th>function</th><th>verdict</th></tr>'
        for i, entry in enumerate(entries, 1):
            link = f'<a href="#function-{i}">{escape(entry.name)}</a>'
            yield f"<tr><td>{link}</td><td>{escape(_kind(entry))}</td></tr>"
        yield "</table></div>"


def _kind(entry: Entry) -> str:
    return entry.verdict.claim.replace("-", " ") if entry.verdict is not None else "no verdict"


def _section(i: int, entry: Entry, built: Dict[str, str]) -> Iterator[str]:
    yield f'<section id="function-{i}">'
    yield f"<h2>{escape(entry.name)}</h2>"
    is_refused = entry.function is None or entry.verdict is None
    if is_refused:
        yield f'<p class="verdict refused">{_refusal(entry.said)}</p>'
    else:
        yield f'<p class="verdict">{_in_words(entry.said)}</p>'
        yield f'<p class="of">π: {escape(function_in_words(entry.function))}</p>'
        yield from _pictures(i, entry)
        yield from _function(entry.function)
        yield from _proof(entry)
        yield from _how_to_check(entry)
        yield from _for_a_paper(entry, built)
    yield "</section>"


def _in_words(said: str) -> str:
    """Words in which code stands between back quotes."""
    return re.sub("`([^`]*)`", r"<code>\1</code>", escape(said))


def _refusal(said: str) -> str:
    """What a terminal shows of a refusal, without its line breaks: the line at fault is code."""
    first, *rest = said.split("\n")
    line = "".join(each.strip() for each in rest if each.startswith("    "))
    advice = " ".join(each.strip() for each in rest if not each.startswith("    "))
    shown = [_in_words(first), f"<code>{escape(line)}</code>" if line else "", _in_words(advice)]
    return "\n".join(filter(None, shown))


def _pictures(i: int, entry: Entry) -> Iterator[str]:
    function, verdict = entry.function, entry.verdict
    shown = [("The graph of π", _plot.plot(function, width=PICTURE_WIDTH))]
    if verdict.violation:
        shown = [("The graph of π, and where it fails", _plot.plot(verdict, width=PICTURE_WIDTH))]
    words = (
        "Where π(x) + π(y) = π(x + y): the maximal additive faces, and the projections of the "
        "triangles at the borders"
    )
    shown.append((words, _plot.plot_faces(verdict, width=PICTURE_WIDTH)))
    if verdict.halves:
        words = "The two halves, whose average is π, and their difference"
        shown.append((words, _plot.plot(verdict, width=PICTURE_WIDTH)))
    yield '<div class="pictures">'
    for j, (words, picture) in enumerate(shown):
        svg = _inline(picture, f"f{i}p{j}", f"{words}, of {function_in_words(function)}")
        yield f"<figure>{svg}<figcaption>{escape(words)}.</figcaption></figure>"
    yield "</div>"


def _inline(picture: _plot.Picture, prefix: str, words: str) -> str:
    """The picture as a part of the page, with names of its own and the colours of the page."""
    text = picture.bytes("svg").decode()
    text = re.sub(r"<metadata>.*?</metadata>", "", text[text.index("<svg") :], flags=re.S)
    text = re.sub(r'\b(id|gid)="', rf'\1="{prefix}-', text)
    text = re.sub(r'(href="#|url\(#)', rf"\1{prefix}-", text)
    for colour, (name, _) in THEME.items():
        text = text.replace(colour, f"var(--{name})")
    head, _, rest = text.partition(">")
    box = re.search(r'viewBox="[^"]*"', head)[0]
    names = 'xmlns:xlink="http://www.w3.org/1999/xlink" xmlns="http://www.w3.org/2000/svg"'
    return f'<svg {names} {box} role="img" aria-label="{escape(words)}">{rest.strip()}'


def _function(function: Function) -> Iterator[str]:
    points, jumps = function.breakpoints, not function.is_continuous
    yield "<h3>The function</h3>"
    words = "and limits from the left and from the right" if jumps else ""
    yield (
        f"<p>f = {function.f}. π has the period 1, and the order {function.order}: it is affine "
        f"between the multiples of 1/{function.order}. These are the {len(points)} breakpoints, "
        f"with the values there {words}.</p>".replace(" .", ".")
    )
    heads = ["place", "from the left", "value", "from the right"] if jumps else ["place", "value"]
    rows = ["<tr>" + "".join(f"<th>{head}</th>" for head in heads) + "</tr>"]
    for point in points:
        cells = point if jumps else (point.place, point.value)
        rows.append("<tr>" + "".join(f"<td>{cell}</td>" for cell in cells) + "</tr>")
    table = f'<div class="wide"><table>{"".join(rows)}</table></div>'
    yield _folded(table, f"{len(points)} breakpoints", len(points) > MOST_BREAKPOINTS)


def _folded(what: str, words: str, is_long: bool) -> str:
    return f"<details><summary>{words}</summary>{what}</details>" if is_long else what


def _proof(entry: Entry) -> Iterator[str]:
    lines = list(explained(entry.verdict.text))
    yield "<h3>The proof, line by line</h3>"
    shown = "\n".join(
        f"<li><code>{escape(line)}</code> <span>{_in_words(words)}</span></li>"
        for line, words in lines
    )
    listed = f'<ol class="proof">{shown}</ol>'
    yield _folded(listed, f"{len(lines)} lines", len(lines) > MOST_LINES)


def _how_to_check(entry: Entry) -> Iterator[str]:
    name = _file_of(entry.name)
    data = base64.b64encode(entry.verdict.text.encode()).decode()
    yield "<h3>How to check it</h3>"
    link = f'<a download="{escape(name)}" href="data:text/plain;base64,{data}">{escape(name)}</a>'
    yield (
        f"<p>Save the proof, {link}. It has the function in it: compare that with yours. Then let "
        "the proved program check it:</p>"
    )
    yield f"<pre>gjcut check &lt; {escape(name)}\n{escape(entry.judged)}</pre>"
    yield (
        "<p>The second line is what it must print, and what the library said when this page was "
        "made. Without the kit <code>python3 proofcheck.py</code> of the folder "
        "<code>python/gjcut</code> checks the same file. That one is not proved, and short enough "
        "to read.</p>"
    )


def _file_of(name: str) -> str:
    """The name for a proof of a function of this name."""
    stem = re.sub(r"\.\w+$", "", name.rsplit("/", 1)[-1]) if "/" in name else name
    parts = name.rsplit("/", 2)
    if stem in ("input", "output") and len(parts) > 1:
        stem = parts[-2]
    return re.sub(r"[^\w.-]+", "_", re.sub(r"\.\w+$", "", stem)) + ".proof"


def _for_a_paper(entry: Entry, built: Dict[str, str]) -> Iterator[str]:
    verdict = entry.verdict
    if verdict.violation:
        kind, *at = verdict.violation
        places = [x for x in at if x is not None]
        claim = f"π is not minimal: {violation_in_words(entry.function, kind, *places)}"
    else:
        claim = CLAIMS[verdict.claim]
        if verdict.claim == "extreme" and entry.function.is_continuous:
            claim = claim.replace("π is", "π is continuous and", 1)
    commit, kit = built["commit"], built["kit"]
    yield "<h3>For a paper</h3>"
    yield (
        f"<blockquote>gjcut (commit {escape(commit)}, proved with {escape(kit)}) proves that "
        f"{escape(claim)}. The proof text is attached, and <code>gjcut check</code> accepts it."
        "</blockquote>"
    )
    yield (
        "<p>Write this once the program that was proved at this commit has accepted the proof: "
        "this page is not proved, and says what a library answered.</p>"
    )


def _foot(built: Dict[str, str], is_clone: bool) -> Iterator[str]:
    where = " of this clone; the library may be older" if is_clone else ""
    yield "<h2>What answered</h2>"
    yield "<table>"
    for name, value in (
        ("version", built["version"]),
        ("commit", f"{built['commit']}{where}"),
        ("kit", built["kit"]),
    ):
        yield f"<tr><th>{name}</th><td>{escape(value)}</td></tr>"
    yield "</table>"
