"""Pictures of gnuplot as a reader takes them: panels, the numbers on their axes, and what is drawn within their frames."""

import xml.etree.ElementTree

from drawings import SVG, Scale, need, pairs

EDGE, SHORT = 0.6, 20  # points: how far from a frame something still stands at it; how long the line of a mark is
TICK = 2.5  # ms of a tick, where pictures tell units


def number_of(words):
    """The number at a mark. Behind a tick may stand its time, in ms or s."""
    number, _, time = words.partition(" (")
    times = [float(number) * TICK, float(number) * TICK / 1000]
    need(not time or any(abs(float(time.rstrip(")")) - one) < 1e-9 for one in times), f"{words} isn't the time of this tick")
    return float(number)


def text_of(group):
    """(x, y, words) of a group that has a text; None if it has none."""
    text = group.find(f"{SVG}text")
    if text is None:
        return None
    x, y = pairs(group.get("transform"))[0]
    return x, y, "".join(text.itertext()).strip()


class Panel:
    """A frame, what stands at its sides, and what is drawn in it."""

    def __init__(self, frame, marks):
        xs, ys = [x for x, _ in frame], [y for _, y in frame]
        self.left, self.right, self.top, self.bottom = min(xs), max(xs), min(ys), max(ys)
        self.marks, self.plots = marks, []

    def at(self, side):
        """What stands at a side, each at a short line from the frame on: (place, words)."""
        across, along = (0, 1) if side in ("left", "right") else (1, 0)
        for (begin, end), words in self.marks:
            if (abs(begin[across] - getattr(self, side)) < EDGE and begin[along] == end[along]
                    and abs(begin[across] - end[across]) < SHORT):
                yield begin[along], words

    def scale(self, side):
        return Scale([(place, number_of(words)) for place, words in self.at(side)])

    def heights(self):
        """The axis that goes up. Places count downwards there."""
        marks = sorted((-place, number_of(words)) for place, words in self.at("left"))
        scale = Scale(marks)
        return lambda number: -scale.of(number)

    def has(self, point):
        return (self.left - EDGE <= point[0] <= self.right + EDGE and self.top - EDGE <= point[1] <= self.bottom + EDGE)

    def add(self, group):
        """A plot: its title, its curve without the sample, its points, and the boxes."""
        title = group.find(f"{SVG}title").text
        lines = [pairs(part) for path in group.iter(f"{SVG}path") for part in path.get("d").split("M")[1:]]
        curve = [point for part in lines if all(map(self.has, part)) for point in part]
        points = [pairs(use.get("transform"))[0] for use in group.iter(f"{SVG}use")]
        boxes = [pairs(box.get("points")) for box in group.iter(f"{SVG}polygon")]
        self.plots.append((title, curve, [point for point in points if self.has(point)],
                           [box for box in boxes if all(map(self.has, box))]))

    def curve(self, title):
        found = [curve for name, curve, _, _ in self.plots if name == title]
        need(len(found) == 1, f"{len(found)} curves are named {title}")
        return found[0]

    def curve_at(self, sign):
        """The curve without a name that keeps to a sign at the right; the sign's height, and the height where it fails."""
        signs = sorted((place, words) for place, words in self.at("right"))
        [height] = [place for place, words in signs if words == sign]
        unit = (signs[1][0] - signs[0][0]) / 2.5
        found = [curve for name, curve, _, _ in self.plots if name.startswith("gnuplot_plot_") and curve
                 and all(height - 1 <= y <= height + unit + 1 for _, y in curve)]
        need(len(found) == 1, f"{len(found)} curves are at {sign}")
        return found[0], height, height + unit


class Plotted:
    """All panels of a picture, and its other texts."""

    def __init__(self, source):
        self.panels, self.texts, marks, plots, frames = [], [], [], set(), []
        for group in xml.etree.ElementTree.fromstring(source).iter(f"{SVG}g"):
            paths = [path for path in group.findall(f"{SVG}path") if path.get("class") != "gridline"]
            told = [text for text in map(text_of, group.findall(f"{SVG}g")) if text]
            if (group.get("id") or "").startswith("gnuplot_plot_"):
                self.panels[-1].add(group)
                plots |= set(group.iter())
            elif group not in plots:
                marks += [(pairs(paths[0].get("d"))[:2], words) for _, _, words in told if paths]
                self.texts += told
                for path in (path.get("d") for path in paths):
                    # A frame is drawn before what stands in it, and once more behind it.
                    if path.rstrip().endswith("Z") and len(pairs(path)) == 5 and path not in frames:
                        frames.append(path)
                        self.panels.append(Panel(pairs(path), marks))
                        marks = []

    def title_of(self, panel):
        above = [words for x, y, words in self.texts
                 if 0 < panel.top - y < 40 and abs(x - (panel.left + panel.right) / 2) < 2]
        return above[-1] if above else None
