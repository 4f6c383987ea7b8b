"""Text, Markdown and items of lists as roff, which manual pages are written in."""
import re
from typing import Iterable, Iterator, List, Sequence

from ruzgalt.which import version

# What stands for itself in roff's input is another character, or none.
EXACT = {"\\": r"\e", "'": r"\(aq", "`": r"\(ga", "^": r"\(ha", "~": r"\(ti", '"': r"\(dq", "-": r"\-"}
# Code, with one or two backquotes on each side; stressed words; a link.
MARKED = re.compile(r"``(?P<wide>.+?)``|`(?P<code>[^`]+)`|\*\*(?P<stressed>.+?)\*\*|\[(?P<link>[^]]+)\]\([^)]*\)")


def exact(text: str) -> str:
    """The text, each character as it is."""
    return "".join(EXACT.get(c, c if c.isascii() else f"\\[u{ord(c):04X}]") for c in text)


def prose(text: str) -> str:
    """Returns the text, with the quotes and hyphens of prose."""
    return re.sub(r"(?<=\w)\\-(?=[a-zA-Z])", "-", exact(text).replace(r"\(aq", "'"))


def marked(found: "re.Match[str]") -> str:
    kind = found.lastgroup or ""
    if kind == "link":
        return inline(found[kind])
    return rf"\fI{prose(found[kind])}\fR" if kind == "stressed" else rf"\fB{exact(found[kind].strip())}\fR"


def inline(text: str) -> str:
    """Returns a text of Markdown: code is bold, stress is italic, and a link becomes its words."""
    parts: List[str] = []
    at = 0
    for found in MARKED.finditer(text):
        parts += [prose(text[at:found.start()]), marked(found)]
        at = found.end()
    return "".join([*parts, prose(text[at:])])


def line(text: str) -> str:
    """Returns a line of input that isn't a request."""
    return rf"\&{text}" if text.startswith((".", "'")) else text


def paragraph(text: str) -> List[str]:
    return [".PP", line(inline(" ".join(text.split())))]


def indented(lines: Iterable[str]) -> List[str]:
    return [".RS 4", *lines, ".RE"]


def verbatim(block: Iterable[str]) -> List[str]:
    return indented([".sp", ".nf", *(line(exact(it)) for it in block), ".fi"])


def item(head: str, texts: Iterable[str]) -> List[str]:
    """Yields a head, and its text below it."""
    return [".PP", line(head), *indented([word for text in texts for word in (line(text), ".br")][:-1])]


def cells_of(row: str) -> List[str]:
    """The cells of a table's row, which may begin and end with a bar."""
    return [cell.strip().replace(r"\|", "|") for cell in re.split(r"(?<!\\)\|", re.sub(r"^\||(?<!\\)\|$", "", row))]


def table(rows: Sequence[str]) -> Iterator[str]:
    """Yields an item for each row. The table's head names its third cell and later ones."""
    cells = [cells_of(row) for row in rows]
    heads = [head.capitalize() for head in cells[0]]
    for first, second, *others in cells[2:]:
        named = (f"{head}: {text}" for head, text in zip(heads[2:], others))
        yield from item(inline(first), [inline(text) for text in (second, *named)])


def bullet(text: str) -> List[str]:
    return [r".IP \(bu 2", line(inline(" ".join(text.split())))]


def markdown(text: str) -> Iterator[str]:
    """Paragraphs, bullets, tables and blocks of code, fenced or indented. Pictures are left out."""
    fenced = re.compile(r"^```.*\n((?:.*\n)*?)```$", re.M)
    text = fenced.sub(lambda it: re.sub(r"^(?=.)", "    ", it[1], flags=re.M), text)
    for block in re.split(r"\n\s*\n", text.strip("\n")):
        lines = block.split("\n")
        if block.startswith("!["):
            continue
        if block.startswith("    "):
            yield from verbatim([it[4:] for it in lines])
        elif len(lines) > 1 and re.fullmatch(r"[-|: ]*---[-|: ]*", lines[1]):
            yield from table(lines)
        elif block.startswith("### "):
            yield f".SS {inline(block[4:])}"
        elif block.startswith("- "):
            for one in re.split(r"\n- ", block[2:]):
                yield from bullet(one)
        else:
            yield from paragraph(block)


def section(name: str, lines: Iterable[str]) -> List[str]:
    return [f".SH {name.upper()}", *lines]


def opening(name: str) -> List[str]:
    """The head of a page. No word is parted, nor is space put between words."""
    head = f'.TH {name.upper()} 1 "" "Ruzgalt {version()}" "User Commands"'
    return [r'.\" Made by tools/man-page.', head, ".nh", ".ad l"]
