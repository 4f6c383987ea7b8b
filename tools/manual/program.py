"""The pages of dipq and dipq-live: their help pages, and in dipq's the language of docs/LANGUAGE.md.

The help page is divided into the sections that each manual page has. The parts of the language are sections too, except
its usual mistakes and ./dipq.
"""
import re
from pathlib import Path
from typing import Dict, Iterator, List

from manual.roff import exact, item, markdown, opening, paragraph, prose, section, verbatim

TOP = Path(__file__).resolve().parents[2]
LEFT_OUT = ("Usual mistakes", "The program")
ENVIRONMENT = """\
Settings of the C library. If it isn't set, the program runs with large pages of memory."""
SEE_ALSO = r"""
\fB{}\fR(1), \fBdipq-answers\fR(1), \fBdipq-load\fR(1). In the repository of Ruzgalt, and in
/usr/share/doc/dipq where its package is installed: docs/LANGUAGE.md, which lists usual mistakes too;
docs/RECIPES.md and docs/LOADING.md, command lines that go further; examples/, scripts with their answers."""


def language() -> Iterator[str]:
    """A section for each of docs/LANGUAGE.md."""
    text = (TOP / "docs" / "LANGUAGE.md").read_text(encoding="utf-8")
    for part in re.split(r"^##? ", text, flags=re.M)[1:]:
        name, _, rest = part.partition("\n")
        if name not in LEFT_OUT:
            yield from section(name, markdown(rest))


def help_page(name: str) -> str:
    """The page that a program prints."""
    source = (TOP / "crates" / name.replace("-", "_") / "src" / "help.rt").read_text(encoding="utf-8")
    page = re.search(r'HELP: &str = "\\\n(.*?)(?<!\\)";', source, re.S)
    return re.sub(r"\\(.)", r"\1", page[1] if page else "")


def entries(block: str) -> Iterator[str]:
    """An item for each line `  HEAD   TEXT` of the help page, with the lines that go on with it."""
    for head, text in re.findall(r"^  (\S.*?) {2,}(\S.*(?:\n {3,}.*)*)", block, re.M):
        yield from item(usage(head), [prose(" ".join(text.split()).rstrip(","))])


def usage(text: str) -> str:
    """Returns a line of usage: words to be typed are bold, and words to be replaced are italic."""
    words = re.compile(r"(--[a-z]+|dipq(?:-live)?)|\b([A-Z]+)\b")
    return words.sub(lambda it: rf"\fB{exact(it[1])}\fR" if it[1] else rf"\fI{it[2]}\fR", text)


def parts_of_help(name: str) -> Dict[str, List[str]]:
    """What the help page says, for each section: its blocks, by how they look."""
    first, *blocks, _ = help_page(name).strip("\n").split("\n\n")
    parts: Dict[str, List[str]] = {"name": [rf"{exact(name)} \- {prose(first.removeprefix(f'{name} ').rstrip('.'))}"]}
    parts.update({name: [] for name in ("synopsis", "description", "options", "exit status", "examples")})
    for block, after in zip(blocks, [*blocks[1:], ""]):
        if block.startswith("usage:"):
            lines = block.removeprefix("usage:").split("\n")
            parts["synopsis"] += [".nf", *(usage(it.strip()) for it in lines), ".fi"]
        elif block.startswith("  --"):
            parts["options"] += entries(block)
        elif "\n  0 " in block:
            parts["exit status"] += [*paragraph(block.split("\n  ")[0]), *entries(block)]
        elif block.startswith("    "):
            parts["examples"] += verbatim([it[4:] for it in block.split("\n")])
        else:
            parts["examples" if after.startswith("    ") else "description"] += paragraph(block)
    return parts


def page(name: str) -> Iterator[str]:
    """The page of a program. dipq's has the language too."""
    parts, is_dipq = parts_of_help(name), name == "dipq"
    yield from opening(name)
    for part in ("name", "synopsis", "description", "options"):
        yield from section(part, parts[part])
    yield from language() if is_dipq else ()
    for part in ("exit status", "examples"):
        yield from section(part, parts[part]) if parts[part] else ()
    yield from section("environment", item(r"\fBGLIBC_TUNABLES\fR", [prose(ENVIRONMENT)]))
    see_also = SEE_ALSO.format(exact("dipq-live" if is_dipq else "dipq"))
    yield from section("see also", [".PP", " ".join(see_also.split())])
