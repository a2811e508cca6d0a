"""Shapes of the pictures in docs/, which the scripts checks/draw_* draw: SVG on a white ground, for a light page and a
dark page. No colour carries a meaning."""

import csv
import html
import os
import subprocess

TOP = os.path.dirname(os.path.dirname(os.path.realpath(__file__)))
INK, SOFT, PALE = "#222222", "#666666", "#eeeeee"


def egasim(*words):
    """The lines that a command of the program prints."""
    call = [os.path.join(TOP, "egasim"), *words]
    return subprocess.run(call, cwd=TOP, stdout=subprocess.PIPE, text=True, check=True).stdout.splitlines()


def rows(*words):
    """The rows that a command prints as CSV, by the names of their columns."""
    return list(csv.DictReader(egasim(*words)))


def limits():
    return {name: number for name, number in map(str.split, egasim("limits"))}


def text(x, y, words, size=12, anchor="middle", weight="normal", colour=INK):
    return (f'<text x="{x:g}" y="{y:g}" font-size="{size}" text-anchor="{anchor}" font-weight="{weight}" '
            f'fill="{colour}">{html.escape(words, quote=False)}</text>')


def lines_of(words, letters):
    """A text in lines of at most so many letters."""
    lines = [""]
    for word in words.split():
        if lines[-1] and len(lines[-1]) + 1 + len(word) > letters:
            lines.append("")
        lines[-1] += f" {word}" if lines[-1] else word
    return lines


def stack(x, y, lines, size=12, anchor="middle", colour=INK):
    """Lines of text below each other, the first with its foot at y."""
    return [text(x, y + i * (size + 3), line, size, anchor, colour=colour) for i, line in enumerate(lines)]


def box(x, y, width, height, fill="white", dashes="", corner=0, stroke=INK):
    return (f'<rect x="{x:g}" y="{y:g}" width="{width:g}" height="{height:g}" rx="{corner}" fill="{fill}" '
            f'stroke="{stroke}" stroke-dasharray="{dashes}"/>')


def shape(points, fill="white"):
    return f'<polygon points="{" ".join(f"{x:g},{y:g}" for x, y in points)}" fill="{fill}" stroke="{INK}"/>'


def oval(x, y, across, high):
    return f'<ellipse cx="{x:g}" cy="{y:g}" rx="{across:g}" ry="{high:g}" fill="white" stroke="{INK}"/>'


def line(points, dashes="", head=False, colour=INK, width=1):
    """A line through these points, with a head at the last if it is an arrow."""
    return (f'<polyline points="{" ".join(f"{x:g},{y:g}" for x, y in points)}" fill="none" stroke="{colour}" '
            f'stroke-width="{width}" stroke-dasharray="{dashes}"' + (' marker-end="url(#head)"' if head else "") + "/>")


def picture(width, height, title, about, shapes):
    """A whole picture, with what a reader of screens says of it."""
    head = (f'<marker id="head" markerWidth="9" markerHeight="8" refX="8" refY="4" orient="auto">'
            f'<path d="M0,0 L9,4 L0,8 z" fill="{INK}"/></marker>')
    return "\n".join([
        f'<svg xmlns="http://www.w3.org/2000/svg" width="{width:g}" height="{height:g}" '
        f'viewBox="0 0 {width:g} {height:g}" role="img" font-family="DejaVu Sans, Arial, sans-serif">',
        f"<title>{html.escape(title)}</title>", f"<desc>{html.escape(about)}</desc>", f"<defs>{head}</defs>",
        f'<rect width="{width:g}" height="{height:g}" fill="white"/>', *shapes, "</svg>"])
