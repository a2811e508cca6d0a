"""What egasim find tells: the table of thresholds and ramps, the one that is chosen, and a picture of all."""

from fractions import Fraction

from egasim_tools.calibration.limit_search import is_on_front
from egasim_tools.report.svg import DARK, GRID, INK, MIDDLE, box, line, picture, step_of, text

WIDTH, HEIGHT, LEFT, TOP = 640, 240, 48, 20
NUMBERS = ("threshold", "weight", "limit", "excess", "verdicts", "period", "reaction", "stretch", "missed", "spacing")
OF_RAMPS, WITH_RAMP = ("threshold", "fall", "ramp"), "with the ramp"


def names_of(rows, units):
    """The names of the columns of numbers; those of ramps where there are some."""
    names = NUMBERS if rows[0].fall is None else (*OF_RAMPS, *NUMBERS[1:])
    return (*names, *(["that is"] if units else []), *([WITH_RAMP] if any(row.held for row in rows) else []))


def cells_of(row, names, units):
    """The cells of a row of the table, as texts."""
    told = {**row.limits, "threshold": row.threshold, "weight": row.weight, "limit": row.limit, "period": row.times["period"],
            "fall": row.fall or "-", "that is": units and units.time(int(row.limits["stretch"])), WITH_RAMP: units.ticks(row.lasts())}
    binds = f"{row.binds} at {row.tick}" if row.binds else "-"
    return [*(str(told[name]) for name in names), binds, row.judged()]


def table_of(rows, units):
    """The lines of the table; behind a `*` stand those on the front."""
    names = names_of(rows, units)
    cells = [[*names, "binds", "fits"], *(cells_of(row, names, units) for row in rows)]
    widths = [max(map(len, column)) for column in zip(*cells)]
    fitting = [row for row in rows if not row.hindrance]
    for number, line_cells in enumerate(cells):
        mark = "*" if number and not rows[number - 1].hindrance and is_on_front(rows[number - 1], fitting) else " "
        shown = [cell.rjust(width) if place < len(names) else cell.ljust(width)
                 for place, (cell, width) in enumerate(zip(line_cells, widths))]
        yield f"{mark} {'  '.join(shown)}".rstrip()


def nearest_of(rows, left):
    """What is told where no threshold fits: the row that comes nearest, and which number stands in the way."""
    row = min(rows, key=lambda row: (row.far, row.threshold))
    fall = f" with fall {row.fall}" if row.fall else ""
    where = f"; {row.binds} binds at {row.tick}" if row.binds else ""
    return (f"nothing fits into {left} ticks; of the thresholds tried, {rows[0].threshold} to {rows[-1].threshold}, "
            f"{row.threshold}{fall} comes nearest: {row.hindrance}, where D is {row.limits['excess']} and R "
            f"{row.limits['reaction']}{where}")


def with_ramp_said(row, units):
    return f", {WITH_RAMP} {units.ticks(row.lasts())}" if row.held else ""


def by_words(said):
    """What is said of a result that rests on these words of the call."""
    return f"; by {' and '.join(said)}" if said else ""


def picture_of(rows, left, units, said=()):
    """A bar for each row: what an excess lasts until it is confirmed, until the stages are off, and with the ramp, beside T."""
    highest = max([left, *(row.lasts() for row in rows)]) * Fraction(21, 20)
    each, bottom = Fraction(WIDTH - LEFT - 10, len(rows)), TOP + HEIGHT

    def y_of(ticks):
        return float(bottom - HEIGHT * ticks / highest)

    shapes = []
    for ticks in range(0, int(highest) + 1, step_of(int(highest), 6)):
        shapes += [line([(LEFT, y_of(ticks)), (WIDTH - 10, y_of(ticks))], GRID), text(LEFT - 5, y_of(ticks) + 4, ticks, "end", 10)]
    every = -(-len(rows) // 12)
    for place, row in enumerate(rows):
        confirms, stretch = int(row.limits["excess"]) - 1, int(row.limits["stretch"])
        x, width = float(LEFT + each * place + each / 8), float(each * 3 / 4)
        shapes.append(box(x, y_of(confirms), width, bottom - y_of(confirms), DARK))
        shapes.append(box(x, y_of(stretch), width, y_of(confirms) - y_of(stretch), "white" if row.hindrance else MIDDLE, INK))
        if row.held:
            shapes.append(box(x, y_of(row.lasts()), width, y_of(stretch) - y_of(row.lasts()), "white", INK))
        if place % every == 0:
            shapes.append(text(x + width / 2, bottom + 14, f"{row.threshold}{f'/{row.fall}' if row.fall else ''}", size=10))
    shapes.append(line([(LEFT, y_of(left)), (WIDTH - 10, y_of(left))], INK, "6 3", 2))
    shapes.append(text(WIDTH - 12, y_of(left) - 5, f"T {units.ticks(left)}", "end"))
    what = "threshold" if rows[0].fall is None else "threshold/fall"
    ends = ", up to the stretch and with the ramp" if any(row.held for row in rows) else " and up to the stretch"
    shapes.append(text((LEFT + WIDTH) / 2, bottom + 32, f"{what}, tenths of Nm; ticks up to D - 1 (dark){ends}", size=10))
    about = "; ".join(f"{row.said()}: D {row.limits['excess']}, stretch {row.limits['stretch']}{with_ramp_said(row, units)}, "
                      f"{row.judged()}" for row in rows) + f"{by_words(said)}"
    return picture("find", WIDTH, bottom + 42, "How long an excess may last, by the threshold", about, shapes)
