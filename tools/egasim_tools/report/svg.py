"""Shapes of SVG: pictures that need no other program, and are legible in grey. A length is a pixel where a picture
stands as it is."""

import html

INK, GRID, DARK, MIDDLE = "#222222", "#dddddd", "#7f1416", "#3f8fca"


def escaped(text):
    """A text as HTML and SVG have it. A character that can't be seen, or turns the reading, is told by its number."""
    return html.escape("".join(c if c.isprintable() else f"\\u{ord(c):04x}" for c in str(text)))


def step_of(span, most):
    """A round number that divides a span into at most so many parts."""
    step = 1
    while span > step * most:
        step = step * 2 if str(step)[0] in "15" else step * 5 // 2
    return step


def text(x, y, words, anchor="middle", size=11):
    return (f'<text x="{x:.1f}" y="{y:.1f}" font-size="{size}" fill="{INK}" text-anchor="{anchor}">'
            f'{escaped(words)}</text>')


def width_of(words, size=11):
    """About how wide a text is."""
    return 0.62 * size * len(str(words))


def line(points, colour=INK, dashes="", width=1):
    return (f'<polyline points="{" ".join(f"{x:.1f},{y:.1f}" for x, y in points)}" fill="none" stroke="{colour}" '
            f'stroke-width="{width}"' + (f' stroke-dasharray="{dashes}"' if dashes else "") + "/>")


def box(x, y, width, height, fill, stroke="none"):
    return (f'<rect x="{x:.1f}" y="{y:.1f}" width="{max(width, 0.5):.1f}" height="{height:.1f}" fill="{fill}" '
            f'stroke="{stroke}"/>')


def shape(points, fill):
    return f'<polygon points="{" ".join(f"{x:.1f},{y:.1f}" for x, y in points)}" fill="{fill}"/>'


def picture(name, width, height, title, about, shapes):
    """A picture with what a reader of screens says of it: its title, and what is to be seen. `name` is its own."""
    yield (f'<svg xmlns="http://www.w3.org/2000/svg" width="{width}" height="{height}" viewBox="0 0 {width} {height}" '
           f'role="img" aria-describedby="{name}-about">')
    yield f"<title>{escaped(title)}</title>"
    yield f'<desc id="{name}-about">{escaped(about)}</desc>'
    yield '<g font-family="DejaVu Sans, Arial, sans-serif">'
    yield f'<rect width="{width}" height="{height}" fill="white"/>'
    yield from shapes
    yield "</g>\n</svg>"
