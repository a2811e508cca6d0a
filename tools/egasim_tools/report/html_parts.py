"""Parts of a page of HTML that needs nothing else: texts, tables, and what the documents say."""

import os
import re
from html import escape

from egasim_tools.base.documents import ITEM, blocks_of, cells_of
from egasim_tools.base.files import TOOLS, read
from egasim_tools.report.svg import escaped

NUMBER = re.compile(r"-?\d+( \(.*\))?|none|")  # in its unit, too, if units are told


class Html(str):
    """A text that is HTML already."""


def shown(text):
    """A text of a file or of the call, as HTML."""
    return text if isinstance(text, Html) else escaped(text)


def paragraph(text, kind=None):
    return Html(f'<p class="{kind}">{shown(text)}</p>' if kind else f"<p>{shown(text)}</p>")


def code(text):
    return Html(f"<code>{shown(text)}</code>")


def is_of_numbers(cells):
    return all(map(NUMBER.fullmatch, cells)) and not set(cells) <= {"none", ""}


def table(caption, heads, rows, kind="said"):
    """A table. Numbers stand at the right of a column that has nothing else; the first cell of a row is its name. Below a
    heading of the same words the caption isn't shown."""
    rows = [list(row) for row in rows]
    classes = [' class="number"' if is_of_numbers([str(row[place]) for row in rows]) else "" for place in range(len(heads))]
    yield f'<div class="wide {kind}" tabindex="0" role="group" aria-label="{shown(caption)}">'
    yield "<table>" + ("" if kind == "headed" else f"<caption>{shown(caption)}</caption>")
    cells = "".join(f'<th scope="col"{kind}>{shown(head)}</th>' for head, kind in zip(heads, classes))
    yield f"<thead><tr>{cells}</tr></thead>"
    yield "<tbody>"
    for first, *others in rows:
        cells = "".join(f"<td{kind}>{shown(cell)}</td>" for cell, kind in zip(others, classes[1:]))
        yield f'<tr><th scope="row"{classes[0]}>{shown(first)}</th>{cells}</tr>'
    yield "</tbody></table></div>"


def section(name, title, lines):
    yield f'<section id="{name}">'
    yield f"<h2>{shown(title)}</h2>"
    yield from lines
    yield "</section>"


# Documents


def inline(text):
    """A text of a document with `code`, *emphasis* and **strength**."""
    codes = []

    def kept(match):
        codes.append(f"<code>{escape(match[1])}</code>")
        return f"\0{len(codes) - 1}\0"

    text = escape(re.sub("`([^`]+)`", kept, text))
    text = re.sub(r"\*\*(.+?)\*\*", r"<strong>\1</strong>", text)
    text = re.sub(r"\*([^*]+)\*", r"<em>\1</em>", text)
    return Html(re.sub("\0([0-9]+)\0", lambda match: codes[int(match[1])], text))


def items(lines):
    """A list. A thing that begins with a number such as **A1. is found by it."""
    kind = "ul" if ITEM.fullmatch(lines[0])[2] == "-" else "ol"
    yield f"<{kind}>"
    for text in (ITEM.fullmatch(line)[3] for line in lines):
        number = re.match(r"\*\*([A-Z]\d+)\. ", text)
        yield f'<li id="{number[1]}">{inline(text)}</li>' if number else f"<li>{inline(text)}</li>"
    yield f"</{kind}>"


def of_document(text, name):
    """What a part of a document says. Its headings of the third level stand below that of a section."""
    heading = name
    for kind, lines in blocks_of(text):
        if kind == "heading":
            heading = lines[0].lstrip("# ")
            yield f"<h3>{inline(heading)}</h3>"
        elif kind == "table":
            heads, rows = cells_of(lines[0]), [cells_of(line) for line in lines[2:]]
            yield from table(heading, map_inline(heads), map(map_inline, rows), "headed")
        elif kind == "items":
            yield from items(lines)
        elif kind == "code":
            yield f"<pre>{escape(chr(10).join(lines))}</pre>"
        else:
            yield f"<p>{inline(' '.join(lines))}</p>"


def map_inline(cells):
    return [inline(cell) for cell in cells]


# The page


def page(title, lines):
    style = read(os.path.join(TOOLS, "report_files", "page.css")).decode()
    yield "<!DOCTYPE html>"
    yield '<html lang="en">'
    yield '<head>\n<meta charset="utf-8">\n<meta name="viewport" content="width=device-width, initial-scale=1">'
    policy = "default-src 'none'; style-src 'unsafe-inline'"
    yield f'<meta http-equiv="Content-Security-Policy" content="{policy}">'
    yield f"<title>{shown(title)}</title>\n<style>\n{style}</style>\n</head>\n<body>\n<main>"
    yield f"<h1>{shown(title)}</h1>"
    yield from lines
    yield "</main>\n</body>\n</html>"
