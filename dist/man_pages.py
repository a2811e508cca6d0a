"""The manual pages of egasim, made from docs/FORMATS.md, and of its tools, made from their declarations."""

import re

from egasim_tools.base.documents import ITEM, blocks_of, cells_of
from egasim_tools.base.program import own_warning

WIDTH = 70  # characters of a table that stands as it is
CHARACTERS = {"\\": r"\e", "-": r"\-", "'": r"\(aq", "`": r"\(ga", "^": r"\(ha", "~": r"\(ti"}


def escaped(text, is_code):
    return "".join(CHARACTERS[c] if c in CHARACTERS and (is_code or c not in "-'") else c for c in text)


def styled(text):
    """A text with `code`, *emphasis* and **strength**."""
    result, font = [r"\&"], "R"
    for part in re.split(r"(`[^`]+`|\*+)", text):
        if part.startswith("`"):
            result += [r"\fB", escaped(part[1:-1], True), rf"\f{font}"]
        elif part and not part.strip("*"):
            font = ("B" if len(part) == 2 else "I") if font == "R" else "R"
            result.append(rf"\f{font}")
        else:
            result.append(escaped(part, False))
    return "".join(result)


def plain(text):
    return re.sub(r"[`*]", "", text)


def code(lines):
    return ["." + "PP", ".RS 4", ".nf", *(r"\&" + escaped(line, True) for line in lines), ".fi", ".RE"]


def table(lines):
    heads, rows = cells_of(lines[0]), [cells_of(line) for line in lines[2:]]
    widths = [max(len(plain(row[place])) for row in [heads, *rows]) for place in range(len(heads))]
    if len(heads) > 2 and sum(widths) + 2 * len(widths) <= WIDTH:
        return code("  ".join(plain(cell).ljust(width) for cell, width in zip(row, widths)).rstrip() for row in [heads, *rows])
    result = []
    for row in rows:
        cells = [f"*{head}*: {cell}" for head, cell in zip(heads[1:], row[1:]) if cell] if len(heads) > 2 else row[1:]
        result += [".TP", styled(row[0]), *"\n.br\n".join(map(styled, cells)).split("\n")]
    return result


def items(lines):
    result, depth = [], 0
    for line in lines:
        blanks, mark, text = ITEM.fullmatch(line).groups()
        while depth != (1 if blanks else 0):
            result.append(".RS 4" if blanks else ".RE")
            depth += 1 if blanks else -1
        result += [rf".IP \(bu 3" if mark == "-" else f".IP {mark} 4", styled(text)]
    return result + [".RE"] * depth


def head(name, version, told):
    """The first lines of a page; what a page tells in one line begins with a small letter there."""
    yield f'.TH {name.upper()} 1 "" "egasim {version}" "User commands"'
    yield from [".SH NAME", rf"{escaped(name, True)} \- {escaped(told[:1].lower() + told[1:], False)}"]


def page(text, version, program, is_another, tools):
    """The page of the program from the text of docs/FORMATS.md: `program` is the line that --version has on it, and
    `is_another` tells whether it isn't the proved one."""
    commands = re.findall(r"^\| `([a-z]+ ?[^`]*)` \|", text.partition("## Commands")[2].partition("\n## ")[0], re.M)
    proved = "" if is_another else ", by a proved program"
    yield from [*head("egasim", version, f"simulates the monitoring of engine torque{proved}"), ".SH SYNOPSIS"]
    for command in commands:
        name, _, rest = command.partition(" ")
        yield from [rf".B egasim {name}", escaped(rest, True), ".br"] if rest else [rf".B egasim {name}", ".br"]
    yield from [r"\fBegasim\fR TOOL [WORDS]", ".br", r"\fBegasim help\fR [NAME]", ".br", r"\fBegasim \-\-version\fR"]
    yield from [".SH WHICH PROGRAM", escaped(program, False), *([".PP", own_warning("installation")] if is_another else [])]
    for kind, lines in blocks_of(text):
        if kind == "heading":
            marks, _, name = lines[0].partition(" ")
            yield ".SH DESCRIPTION" if len(marks) == 1 else f'.{"SH" if len(marks) == 2 else "SS"} "{plain(name)}"'
        else:
            yield from {"code": code, "table": table, "items": items}.get(kind, lambda lines: [".PP", styled(" ".join(lines))])(lines)
    yield from [".SH SEE ALSO", ", ".join(rf"\fBegasim\-{name}\fR(1)" for name in tools) + ".", ".PP",
                "The folder lib/egasim/docs/ of the installation has the documents that are named here."]


def tool_page(tool, version):
    """The page of a tool, from its declaration."""
    yield from [*head(f"egasim-{tool.name}", version, tool.does), ".SH SYNOPSIS"]
    for form, usage in zip(tool.forms, tool.usages()):
        yield from [".TP", rf"\&\fB{escaped(usage, True)}\fR", escaped(form.does, False)]
    yield ".SH WORDS"
    for word in tool.words():
        yield from [".TP", rf"\&\fB{escaped(word.said(), True)}\fR", rf"\&{escaped(word.about(), False)}"]
    yield from [".SH NOTES", rf"\&{escaped(tool.more(), False)}", ".SH SEE ALSO", r"\fBegasim\fR(1)",
                ".PP", "The folder lib/egasim/docs/ of the installation has the documents that are named here."]
