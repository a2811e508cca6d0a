"""The pictures of a run, and bars of classes of faults."""

from egasim_tools.base.records import corners, stretches, thinned
from egasim_tools.base.units import Units
from egasim_tools.report.svg import DARK, GRID, INK, MIDDLE, box, line, picture, shape, step_of, text, width_of

WIDTH, LEFT, RIGHT = 400, 48, 10  # of each picture
HEIGHT, STAGES = 180, 26  # of the torque, and of what stands below it about the stages
MOST_ROWS = 6  # of what is written above a run
TIMES = 11  # how high a row of times below ticks is
SHADE, STAGES_ON = "#d9d9d9", "#555555"
# Looks of curves: colour, dashes, width. The threshold's line is whole, since dashes say nothing on a steep flank.
TORQUE, MOST, PERMITTED = (DARK, "", 3), (MIDDLE, "", 1.5), (MIDDLE, "2 2", 1)


# A run


class Scale:
    """Where ticks and torques of a run stand."""

    def __init__(self, first, ticks, highest, top):
        self.first, self.ticks, self.highest = first, ticks, highest
        self.move(top)

    def move(self, top):
        self.top, self.bottom = top, top + HEIGHT

    def x(self, tick):
        return LEFT + (WIDTH - LEFT - RIGHT) * (tick - self.first) / self.ticks

    def y(self, torque):
        return self.bottom - HEIGHT * torque / self.highest


def curve(values, scale):
    """The points of a curve that can be told apart."""
    points = ((scale.x(tick), scale.y(value)) for tick, value in corners(values, scale.first))
    return thinned(points, lambda point: round(point[0] * 2))


def spans(values, scale):
    """The places of the ticks at which these values are true, joined where no gap can be seen."""
    joined = []
    for first, end in stretches(values, scale.first):
        if joined and scale.x(first) - joined[-1][1] < 0.5:
            joined[-1][1] = scale.x(end)
        else:
            joined.append([scale.x(first), scale.x(end)])
    return joined


def placed(marks, scale):
    """The rows in which the words of marks stand without touching: (tick, words, x of the words, row or None)."""
    ends = []
    for tick, words in sorted(marks):
        half = width_of(words, 10) / 2
        x = min(max(scale.x(tick), half + 1), WIDTH - half - 1)
        row = next((row for row, end in enumerate(ends) if end + 6 < x - half), len(ends))
        if row < MOST_ROWS:
            ends[row:row + 1] = [x + half]
        yield tick, words, x, row if row < MOST_ROWS else None


def mark_shapes(places, scale):
    for tick, words, x, row in places:
        yield line([(scale.x(tick), scale.top - 4), (scale.x(tick), scale.bottom)], INK, "2 2")
        yield shape([(scale.x(tick) + side, scale.top - 4 + down) for side, down in ((-4, -5), (4, -5), (0, 1))], INK)
        if row is not None:
            yield text(x, scale.top - 13 - 13 * row, words, size=10)


def axes(scale, units):
    right, below = WIDTH - RIGHT, scale.bottom + STAGES
    for value in range(0, int(scale.highest) + 1, step_of(scale.highest, 5)):
        yield line([(LEFT, scale.y(value)), (right, scale.y(value))], GRID)
        yield text(LEFT - 5, scale.y(value) + 4, units.newton_metres(value), "end", 10)
    step = step_of(scale.ticks, 8)
    ticks = range(-(-scale.first // step) * step, scale.first + scale.ticks + 1, step)
    for tick in ticks:
        yield line([(scale.x(tick), scale.top), (scale.x(tick), below)], GRID)
        yield text(min(scale.x(tick), WIDTH - width_of(tick, 10) / 2 - 1), below + 13, tick, size=10)
    yield from below_ticks(LEFT + (right - LEFT) / 2, below, "tick", [(tick, scale.x(tick)) for tick in ticks], units)
    middle = scale.top + HEIGHT / 2
    torque = f"torque, {units.of_torque()}"
    yield f'<g transform="rotate(-90 10 {middle:.0f})">{text(10, middle, torque, size=10)}</g>'


def below_ticks(x, below, title, places, units):
    """What stands below the numbers of an axis of ticks: its title, and above it their times where units are told."""
    if not units:
        yield text(x, below + 28, title, size=10)
        return
    unit, times = units.times([tick for tick, _ in places], max(tick for tick, _ in places))
    for (_, at), time in zip(places, times):
        yield text(min(at, WIDTH - width_of(time, 10) / 2 - 1), below + 13 + TIMES, time, size=10)
    yield text(x, below + 28 + TIMES, f"{title}, and in {unit}", size=10)


def stage_shapes(on, scale):
    y = scale.bottom + STAGES - 7
    yield text(LEFT - 5, y + 1, "stages", "end", 10)
    yield line([(LEFT, y), (WIDTH - RIGHT, y)], "#888888")
    for first, end in spans(on, scale):
        yield box(first, y - 6, end - first, 9, STAGES_ON)


def sample(looks, y):
    colour, dashes, width = looks
    return lambda x: line([(x, y - 4), (x + 22, y - 4)], colour, dashes, width)


def legend(y):
    other, rows = LEFT + 150, (y, y + 16, y + 32)
    for x, at, words, shape_of in (
            (LEFT, rows[0], "torque", sample(TORQUE, rows[0])),
            (LEFT, rows[1], "permitted", sample(PERMITTED, rows[1])),
            (other, rows[0], "permitted and threshold", sample(MOST, rows[0])),
            (other, rows[1], "excess", lambda x: box(x, rows[1] - 10, 22, 11, SHADE)),
            (LEFT, rows[2], "stages on", lambda x: box(x, rows[2] - 9, 22, 9, STAGES_ON))):
        yield shape_of(x)
        yield text(x + 28, at, words, "start", 10)


def record_picture(name, title, about, record, threshold, marks, units=Units()):
    """Torque, permitted torque without and with the threshold, excess and power stages of a run, or of ticks of it. `marks`
    are ticks with what is written above them. Where curves meet, the thinner one lies on the thicker."""
    most = [limit + threshold for limit in record["limit"]]
    scale = Scale(record["tick"][0], len(most), max(max(record["torque"]), max(most), 1) * 1.05, 0)
    places = list(placed(marks, scale))
    scale.move(14 + 13 * max([row + 1 for *_, row in places if row is not None], default=0))
    below = scale.bottom + STAGES + (TIMES if units else 0)
    shapes = [box(first, scale.top, end - first, HEIGHT, SHADE)
              for first, end in spans([torque > line for torque, line in zip(record["torque"], most)], scale)]
    shapes += axes(scale, units)
    for values, looks in ((record["torque"], TORQUE), (most, MOST), (record["limit"], PERMITTED)):
        shapes.append(line(curve(values, scale), *looks))
    shapes += [*stage_shapes(record["on"], scale), *mark_shapes(places, scale), *legend(below + 48)]
    return picture(name, WIDTH, below + 88, title, about, shapes)


# Bars of classes


class Bars:
    """A bar of ticks for each class, or none."""

    def __init__(self, numbers, bounds, units):
        self.numbers, self.units = numbers, units
        self.left, self.right, self.top, self.each = 88, WIDTH - (100 if units else 46), 24, 18
        self.highest = max([1, *bounds, *(number or 0 for number in numbers.values())])
        self.bottom = self.top + self.each * len(numbers)

    def x(self, value):
        return self.left + (self.right - self.left) * value / self.highest

    def shapes(self, axis, open_bars):
        """All but the bounds. `open_bars` are the classes whose bars are white."""
        values = range(0, self.highest + 1, step_of(self.highest, 8))
        for value in values:
            yield line([(self.x(value), self.top), (self.x(value), self.bottom)], GRID)
            yield text(self.x(value), self.bottom + 14, value, size=10)
        yield from below_ticks((self.left + self.right) / 2, self.bottom + 1, axis, [(value, self.x(value)) for value in values],
                               self.units)
        for (kind, number), y in zip(self.numbers.items(), range(self.top, self.bottom, self.each)):
            yield text(self.left - 6, y + 13, kind, "end")
            if number:
                colours = ("white", INK) if kind in open_bars else ("#5f7f9f",)
                yield box(self.left, y + 3, self.x(number) - self.left, self.each - 6, *colours)
            yield text(WIDTH - 4, y + 13, "none" if number is None else self.units.ticks(number), "end")

    def bound(self, value, top, bottom):
        return line([(self.x(value), top), (self.x(value), bottom)], INK, "6 3", 2)

    def picture(self, name, title, about, shapes):
        return picture(name, WIDTH, self.bottom + 38 + (TIMES if self.units else 0), title, about, shapes)


def sweep_picture(name, title, about, reactions, bound, units=Units()):
    """The greatest reaction of each class of fault, a bar each, and R as a line. For lapses, whose bar is white, R is no
    bound."""
    bars = Bars(reactions, [bound], units)
    return bars.picture(name, title, about, [
        *bars.shapes("greatest reaction, ticks", {"lapse"}), bars.bound(bound, bars.top - 6, bars.bottom),
        text(bars.x(bound), bars.top - 10, f"R {units.ticks(bound)}")])


def taken_picture(name, title, about, taken, units=Units()):
    """The most ticks that each class of fault takes until something is found, a bar each, and a line at its own bound. The bar of
    a class without one is white. `taken` has both numbers of each class, or None."""
    bounds = {kind: within for kind, (_, within) in taken.items() if within is not None}
    bars = Bars({kind: most for kind, (most, _) in taken.items()}, bounds.values(), units)
    tops = dict(zip(taken, range(bars.top, bars.bottom, bars.each)))
    return bars.picture(name, title, about, [
        *bars.shapes("most ticks until something is found", taken.keys() - bounds.keys()),
        *(bars.bound(within, tops[kind], tops[kind] + bars.each) for kind, within in bounds.items())])
