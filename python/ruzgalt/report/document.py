"""The page itself: its files in one, with the data. No text of the data is ever a part of the page's own language."""
import json
import re
from base64 import b64encode
from hashlib import sha256
from pathlib import Path
from typing import Iterator

from ruzgalt.report.contents import Contents

FOLDER = Path(__file__).parent
# One script, in this order.
SCRIPTS = ("grid.js", "saving.js", "square.js", "tables.js", "page.js")
# Signs of HTML are codes in the data, which JSON reads as characters.
CODES = {"<": "\\u003c", ">": "\\u003e", "&": "\\u0026"}
MARK = re.compile(r"\{\{(policy|style|data|script)\}\}")


def pieces(contents: Contents, steps: str = "") -> Iterator[bytes]:
    """Yields the page by pieces. Tests add steps after its own script."""
    style, script = read("page.css"), "".join(map(read, SCRIPTS)) + steps
    fixed = {"policy": policy(style, script), "style": style, "script": script}
    parts = MARK.split(read("page.html"))
    for place, part in enumerate(parts):
        if place % 2 == 0:
            yield part.encode()
        elif part == "data":
            yield from blocks(contents)
        else:
            yield fixed[part].encode()


def read(name: str) -> str:
    return (FOLDER / name).read_text(encoding="utf-8")


def policy(style: str, script: str) -> str:
    """Returns the page's rights in a browser: this one script and style, no network, no text as HTML."""
    allowed = f"script-src {hash_of(script)}; style-src {hash_of(style)}"
    return f"default-src 'none'; {allowed}; base-uri 'none'; form-action 'none'; {NO_HTML}"


NO_HTML = "require-trusted-types-for 'script'; trusted-types 'none'"


def hash_of(text: str) -> str:
    return f"'sha256-{b64encode(sha256(text.encode()).digest()).decode()}'"


def blocks(contents: Contents) -> Iterator[bytes]:
    yield block("data", json.dumps(contents.data, separators=(",", ":")))
    for name, text in contents.lists:
        yield block(name, text)


def block(name: str, text: str) -> bytes:
    """Returns a block of data in ASCII."""
    for character, code in CODES.items():
        text = text.replace(character, code)
    return f'<script type="application/json" id="{name}">{text}</script>\n'.encode("ascii")
