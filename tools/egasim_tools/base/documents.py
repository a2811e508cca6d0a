"""The documents in docs/, as the tools read them."""

import re

ITEM = re.compile(r"( *)(-|\d+\.) (.*)")


def cells_of(line):
    return [cell.strip().replace(r"\|", "|") for cell in re.split(r"(?<!\\)\|", line.strip()[1:-1])]


def blocks_of(text):
    """(kind, lines) of each block of a document."""
    lines, place = text.split("\n"), 0
    while place < len(lines):
        first, begin = lines[place], place
        if first.startswith("```"):
            place = lines.index("```", place + 1) + 1
            yield "code", lines[begin + 1:place - 1]
            continue
        place += 1
        kinds = (("heading", "#"), ("table", "|"), ("code", "    "))
        kind = next((kind for kind, mark in kinds if first.startswith(mark)), "items" if ITEM.fullmatch(first) else "text")
        while kind != "heading" and first and place < len(lines) and lines[place]:
            place += 1
        if first:
            yield kind, [line[4:] for line in lines[begin:place]] if kind == "code" else lines[begin:place]


def section_of(text, name):
    """What stands below a heading of the second level, up to the next one."""
    return text.partition(f"\n## {name}\n")[2].partition("\n## ")[0]
