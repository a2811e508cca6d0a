"""Pictures as a reader takes them: their scales by the numbers on their axes, their curves by the legend. It knows SVG, and
nothing of the code that draws."""

import bisect
import re
import xml.etree.ElementTree

SVG = "{http://www.w3.org/2000/svg}"
NUMBER = re.compile(r"\d+(\.\d+)?")
# Points: how exact a place is; how far beside its place a value may be drawn; and from how wide on a gap is seen.
NEAR, SIDE, GAP = 0.3, 0.7, 1.2


class Unread(Exception):
    """A picture that doesn't show what it should."""


def need(is_so, text):
    if not is_so:
        raise Unread(text)


def numbers_of(text):
    return [float(number) for number in re.findall(r"-?\d+(?:\.\d+)?", text)]


class Scale:
    """What a place on an axis means, by places and the numbers that stand there."""

    def __init__(self, marks):
        (self.place, self.number), (far, most) = min(marks), max(marks)
        need(far > self.place, f"an axis has a single number: {marks}")
        self.points = (far - self.place) / (most - self.number)
        for place, number in marks:
            need(abs(self.of(number) - place) < NEAR, f"{number} doesn't stand at its place on its axis")

    def of(self, number):
        return self.place + (number - self.number) * self.points


class Drawing:
    """A picture of a record as draw and report draw it."""

    def __init__(self, source):
        root = xml.etree.ElementTree.fromstring(source)
        self.title, self.about = root.find(f"{SVG}title").text, root.find(f"{SVG}desc").text
        self.texts = [(float(text.get("x")), float(text.get("y")), text.text) for text in root.iter(f"{SVG}text")]
        looks = ("stroke", "stroke-dasharray", "stroke-width")
        self.lines = [(pairs(line.get("points")), tuple(map(line.get, looks))) for line in root.iter(f"{SVG}polyline")]
        self.boxes = [(*(float(box.get(side)) for side in ("x", "y", "width", "height")), box.get("fill"))
                      for box in root.iter(f"{SVG}rect") if box.get("x")]

    def labels(self, word):
        """The numbers of the axis on which this word stands, a row above it: (x, number)."""
        [below] = [y for _, y, text in self.texts if text == word]
        return [(x, float(text)) for x, y, text in self.texts if NUMBER.fullmatch(text) and 0 < below - y < 20]

    def upright(self):
        return [points[0][0] for points, _ in self.lines if len(points) == 2 and points[0][0] == points[1][0]]

    def level(self):
        return [points[0][1] for points, _ in self.lines if len(points) == 2 and points[0][1] == points[1][1]]

    def scale_of_places(self, word):
        """The axis that goes to the right. A number stands at the nearest upright line: at the edge it is moved."""
        return Scale([(min(self.upright(), key=lambda place: abs(place - x)), number) for x, number in self.labels(word)])

    def scale_of_values(self):
        """The axis that goes up: the numbers at the left, each beside a level line."""
        marks = [(min(self.level(), key=lambda place: abs(place - y + 4)), float(text))
                 for x, y, text in self.texts if NUMBER.fullmatch(text) and x < 48]
        return Scale(marks)

    def sample(self, word):
        """The place of the sample that stands before a word of the legend."""
        [(x, y)] = [(x, y) for x, y, text in self.texts if text == word and y > max(self.upright_ends())]
        return x - 28, y

    def upright_ends(self):
        return [max(y for _, y in points) for points, _ in self.lines if len(points) == 2 and points[0][0] == points[1][0]]

    def curve(self, word):
        """The curve that looks as the sample before a word of the legend."""
        x, y = self.sample(word)
        [looks] = [looks for points, looks in self.lines
                   if abs(points[0][0] - x) < NEAR and abs(points[0][1] - y + 4) < NEAR and len(points) == 2]
        [points] = [points for points, others in self.lines if others == looks and points[0][1] < y - 20]
        return points

    def filled(self, word):
        """The stretches that are filled as the sample before a word of the legend: (from, to)."""
        x, y = self.sample(word)
        [fill] = [fill for at, top, _, _, fill in self.boxes if abs(at - x) < NEAR and 0 < y - top < 14]
        return [(at, at + width) for at, top, width, _, other in self.boxes if other == fill and top < y - 20]


def pairs(text):
    numbers = numbers_of(text)
    return list(zip(numbers[::2], numbers[1::2]))


# What is drawn, and what should be


class Course:
    """A curve by its points, which go to the right."""

    def __init__(self, points):
        self.points, self.xs = points, [x for x, _ in points]

    def covers(self, begin, end):
        """The least and greatest height of the curve from one place to another; None if it isn't there."""
        first, behind = bisect.bisect_left(self.xs, begin), bisect.bisect_right(self.xs, end)
        heights = [height for _, height in self.points[first:behind]]
        for (one, low), (other, high) in zip(self.points[max(first - 1, 0):behind], self.points[max(first, 1):behind + 1]):
            heights += [low + (high - low) * (cut - one) / (other - one) for cut in (begin, end) if one < cut < other]
        return (min(heights), max(heights)) if heights else None


def stairs(values, first, places, heights):
    """The curve that keeps the value of each tick to the next one, at its places."""
    for tick, value in enumerate(values, first):
        yield places(tick), heights(value)
        yield places(tick + 1), heights(value)


def hold(name, points, wanted, near=NEAR):
    """Refuses a curve that isn't the one that is wanted: it goes on, begins and ends there, and covers at each place what
    the other covers at most a bit beside it, and the other way round."""
    wanted = list(wanted)
    need(points, f"{name} isn't in its frame")
    need(all(one <= other for (one, _), (other, _) in zip(points, points[1:])), f"{name} runs backwards")
    for end in (0, -1):
        need(all(abs(one - other) < near for one, other in zip(points[end], wanted[end])),
             f"{name} {'begins' if end == 0 else 'ends'} at {points[end]} and not at {wanted[end]}")
    place, last, drawn, real = wanted[0][0], wanted[-1][0], Course(points), Course(wanted)
    while place < last:
        for one, other, text in ((drawn, real, "is where the record isn't"), (real, drawn, "isn't where the record is")):
            least, greatest = other.covers(place - SIDE, place + 0.5 + SIDE)
            low, high = one.covers(place, place + 0.5) or (least, greatest)
            need(least - near <= low and high <= greatest + near,
                 f"{name} {text}: at {place:.1f} from {low:.1f} to {high:.1f}, and {least:.1f} to {greatest:.1f}")
        place += 0.5


def hold_stretches(word, drawn, values, first, places):
    """Refuses stretches that aren't those of the ticks at which the values are true, or that hide a gap that can be seen."""
    wanted = []
    for tick, value in enumerate(values, first):
        if value and wanted and wanted[-1][1] == places(tick):
            wanted[-1] = wanted[-1][0], places(tick + 1)
        elif value:
            wanted.append((places(tick), places(tick + 1)))
    for one, other, text in ((drawn, wanted, "is where the record isn't"), (wanted, drawn, "isn't where the record is")):
        for begin, end in one:
            covered = sum(max(0, min(end + SIDE, there + SIDE / 2) - max(begin - SIDE, here - SIDE / 2))
                          for here, there in other)
            need(covered >= end - begin - SIDE and any(here < end + SIDE and begin - SIDE < there for here, there in other),
                 f"{word} {text}: from {begin:.1f} to {end:.1f}")
    for (_, begin), (end, _) in zip(wanted, wanted[1:]):
        middle = (begin + end) / 2
        need(end - begin < GAP or not any(here < middle < there for here, there in drawn),
             f"{word} hides a gap from {begin:.1f} to {end:.1f}")


def read(name, call, *words):
    """Whether a picture is as it should be; else what is wrong with it is told."""
    try:
        call(*words)
        return True
    except (Unread, ValueError) as fault:
        print(f"{name}: {fault}")
        return False
