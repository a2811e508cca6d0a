"""Pictures by gnuplot: how its texts, data and curves are written, and how it is called."""

import subprocess

from egasim_tools.base.records import corners, thinned
from egasim_tools.base.tool import fail
from egasim_tools.base.units import Units
from egasim_tools.report.svg import DARK, GRID, MIDDLE, step_of

GREY, INK = "#888888", "#333333"
WIDTH = 640  # of each picture, in pixels
PIXELS = 44 / 3  # of a text, so that it can be read where a picture is 390 wide
TOP_OF_FOUND = 110  # per cent, of an axis on which something is found at 100
# How curves look, without their titles: (colour, width, dashes). The threshold's line is whole, since dashes say nothing on
# a steep flank.
TORQUE, MOST, PERMITTED = (DARK, 3, None), (MIDDLE, 1.5, None), (MIDDLE, 1.2, "(5,4)")


def quoted(text):
    """A text of gnuplot. What means something there stands as its number: a quote that begins a text would end it."""
    return '"' + "".join(f"\\{ord(c):03o}" if c in "'\"\\`@" else c if c.isprintable() else "?" for c in text) + '"'


def block(name, rows):
    """Data under a name."""
    return f"${name} << END_OF_DATA\n" + "".join(" ".join(map(str, row)) + "\n" for row in rows) + "END_OF_DATA\n"


def named_places(names, first=0):
    """What stands at places of an axis, from `first` on."""
    return "(" + ", ".join(f"{quoted(name)} {place}" for place, name in enumerate(names, first)) + ")"


def curves(name, values_and_looks, first):
    """The data of curves that keep the value of each tick, from `first` on, to the next one; and how gnuplot draws them."""
    data, drawn = [], []
    for number, (values, looks) in enumerate(values_and_looks):
        points = thinned(corners(values, first), lambda point: (point[0] - first) * 2 * WIDTH // len(values))
        data.append(block(f"{name}{number}", points))
        drawn.append(f"${name}{number} with lines {looks}")
    return "".join(data), drawn


def looks_of(colour, width, dashes=None, title=None, second=False):
    """How a curve looks; on the second scale if so."""
    return (f"{'axes x1y2 ' if second else ''}lw {width}{f' dashtype {dashes}' if dashes else ''} lc rgb '{colour}' "
            + (f"title {quoted(title)}" if title else "notitle"))


def places_told(places, told):
    """What stands at places of an axis."""
    return "(" + ", ".join(f'"{words}" {place}' for place, words in zip(places, told)) + ")"


def tick_axis(side, title, first, last, units, most=4):
    """The axis of ticks at a side, x or y: its title, and where units are told the ticks that stand there, with their times
    behind them, in at most so many steps."""
    if not units:
        return f"set {side}label '{title}'\n"
    step = step_of(max(last - first, 1), most)
    places = range(-(-first // step) * step, last + 1, step)
    unit, times = units.times(places, last)
    told = [f"{place} ({time})" for place, time in zip(places, times)]
    return f"set {side}label '{title} ({unit})'\nset {side}tics nomirror {places_told(places, told)}\n"


def torque_scale(highest, signs, units=Units()):
    """The axis of torque in the lower part of a panel; and above it, on the second one, what three signs say at 1."""
    step = step_of(highest, 6)
    places = range(0, highest + 1, step)
    told = places_told(places, map(units.newton_metres, places)) if units else f"0,{step},{highest}"
    yield f"set yrange [0:{highest * 18 / 11}]\nset ytics nomirror {told}\n"
    yield "set y2range [-11.5:7]\nset y2tics nomirror "
    yield "(" + ", ".join(f"{quoted(sign)} {2.5 * place + 1}" for place, sign in enumerate(signs)) + ")\n"
    yield f"set ylabel 'torque, {units.of_torque()}'\n"


def terminal(picture, height):
    """What gnuplot writes: a PNG, or an SVG, by the name. It counts the size of a text in points there, here in pixels."""
    kind, size = ("svg", PIXELS) if picture.endswith(".svg") else ("pngcairo", PIXELS * 3 / 4)
    return (f"set terminal {kind} size {WIDTH},{height} font 'Sans,{size:.1f}' background 'white'\n"
            f"set encoding utf8\nset key noenhanced\nset grid xtics ytics lt 1 lc rgb '{GRID}'\n")


def draw(picture, height, lines, instead=""):
    """Writes a picture. gnuplot reads no settings of its user. `instead` tells what serves without gnuplot."""
    script = terminal(picture, height) + "".join(lines)
    try:
        done = subprocess.run(["gnuplot", "-d", "-"], input=script.encode(), capture_output=True, check=False)
    except FileNotFoundError:
        fail(f"needs gnuplot (the package gnuplot-nox){instead}")
    if done.returncode or not done.stdout:
        fail(f"gnuplot ends with {done.returncode}: {' '.join(done.stderr.decode(errors='replace').split())}")
    try:
        with open(picture, "wb") as file:
            file.write(done.stdout)
    except OSError as error:
        fail(f"cannot write {picture}: {error.strerror}")
