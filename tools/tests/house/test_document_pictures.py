"""Pictures of the documents, read back without the code that draws them: places by the numbers on an axis, texts by
what the program and the documents say. Lettering is at least 10 px at 800 px, and no text lies over another."""

import csv
import os
import re
import subprocess
import unittest
import xml.etree.ElementTree

TOP = os.path.dirname(os.path.dirname(os.path.dirname(os.path.dirname(os.path.realpath(__file__)))))
SVG = "{http://www.w3.org/2000/svg}"


def told(*words):
    """The lines that a command of the program prints."""
    done = subprocess.run([f"{TOP}/egasim", *words], cwd=TOP, stdout=subprocess.PIPE, text=True, check=True)
    return done.stdout.splitlines()


def rows(*words):
    return list(csv.DictReader(told(*words)))


class Seen:
    """What a reader sees in a picture: texts, boxes and lines with their places."""

    def __init__(self, name):
        self.root = xml.etree.ElementTree.parse(f"{TOP}/docs/{name}.svg").getroot()
        self.width, self.height = float(self.root.get("width")), float(self.root.get("height"))
        self.texts = [(float(e.get("x")), float(e.get("y")), e.text, float(e.get("font-size")), e.get("text-anchor"))
                      for e in self.root.iter(f"{SVG}text")]
        self.boxes = [tuple(float(e.get(side)) for side in ("x", "y", "width", "height"))
                      for e in self.root.iter(f"{SVG}rect") if e.get("x")]
        self.lines = [[tuple(map(float, point.split(","))) for point in e.get("points").split()]
                      for e in self.root.iter(f"{SVG}polyline")]

    def place_of(self, words):
        [place] = [(x, y) for x, y, text, *_ in self.texts if text == words]
        return place

    def room_of(self, text):
        """The box that a text fills at least: left, right, top, foot."""
        x, y, words, size, anchor = text
        wide = 0.56 * size * len(words)
        left = x - {"middle": wide / 2, "end": wide}.get(anchor, 0)
        return left, left + wide, y - 0.75 * size, y + 0.2 * size

    def lying_over(self):
        rooms = [(self.room_of(text), text[2]) for text in self.texts]
        return [(one, other) for i, (a, one) in enumerate(rooms) for b, other in rooms[:i]
                if a[0] < b[1] and b[0] < a[1] and a[2] < b[3] and b[2] < a[3]]

    def out_of_sight(self):
        rooms = [(self.room_of(text), text[2]) for text in self.texts]
        return [words for room, words in rooms
                if room[0] < 0 or room[1] > self.width + 1 or room[2] < 0 or room[3] > self.height]


class Legible(unittest.TestCase):
    def test_each_picture_is_legible_and_says_what_it_is(self):
        names = [name.removeprefix("draw_") for name in os.listdir(f"{TOP}/checks") if name.startswith("draw_")]
        for name in names:
            with self.subTest(name):
                seen = Seen(name)
                self.assertEqual((seen.lying_over(), seen.out_of_sight()), ([], []))
                self.assertGreaterEqual(min(size for _, _, _, size, _ in seen.texts) * min(1, 800 / seen.width), 10)
                for part in ("title", "desc"):
                    self.assertTrue(seen.root.find(f"{SVG}{part}").text)


class Times(unittest.TestCase):
    def setUp(self):
        self.seen = Seen("times")
        axis = [(x, float(words)) for x, y, words, *_ in self.seen.texts if words.isdecimal() and y < 60]
        (near, self.zero), (far, last) = min(axis), max(axis)
        self.near, self.step = near, (far - near) / (last - self.zero)

    def tick_at(self, x):
        return round(self.zero + (x - self.near) / self.step, 2)

    def span(self, label):
        """The first tick of the bar beside a name, and the tick at which the bar ends."""
        _, y = self.seen.place_of(label)
        [(x, wide)] = [(x, wide) for x, top, wide, high in self.seen.boxes if top < y < top + high]
        return self.tick_at(x), self.tick_at(x + wide)

    def moment(self, label):
        """The tick of the upright line below words: that line is nearest which their anchor means."""
        x, _ = self.seen.place_of(label)
        return self.tick_at(min((a for (a, y), *_, (b, foot) in self.seen.lines if a == b and foot - y > 50),
                                key=lambda place: abs(place - x)))

    def test_the_spans_are_those_of_limits_and_of_the_runs(self):
        limits = dict(line.split() for line in told("limits"))
        debounce, reaction, stretch = (int(limits[name]) for name in ("excess", "reaction", "stretch"))
        by = {run: rows("record", "examples/first_run/levels.toml", run) for run in ("full", "full-path1")}
        off = {run: next(int(row["tick"]) for row in by[run] if row["on"] == "0") for run in by}
        high = [int(row["tick"]) for row in by["full-path1"] if int(row["torque"]) > int(row["limit"]) + 200]
        first, found = high[0], next(int(row["tick"]) for row in by["full"] if row["found"] == "torque")
        self.assertEqual({label: self.moment(label) for label in ("fault", "first excess", "confirmed", "cut by path 1",
                                                                  "cut by path 2")},
                         {"fault": 0, "first excess": first, "confirmed": found, "cut by path 1": off["full"],
                          "cut by path 2": off["full-path1"]})
        self.assertEqual(self.span("D"), (first, first + debounce))
        self.assertEqual(self.span("path 1: next tick"), (found, off["full"]))
        self.assertEqual(self.span("R (path 2, at the latest)"), (found, found + reaction))
        self.assertEqual(self.span("stretch = D - 1 + R"), (first, first + stretch))
        begin, end = self.span("fault tolerant time")
        self.assertEqual((self.span("a tick: begun between two"), self.span("torque falls (--falls)")),
                         ((begin, first), (first + stretch, end)))

    def test_the_fault_tolerant_time_is_the_least_that_find_takes(self):
        [words] = [words for _, _, words, *_ in self.seen.texts if "at least" in words]
        ticks, tick, whole = re.fullmatch(r"at least (\d+) ticks of (\d+) ms: (\d+) ms", words).groups()
        begin, end = self.span("fault tolerant time")
        self.assertEqual((end - begin, int(ticks) * int(tick)), (int(ticks), int(whole)))
        call = ["find", "examples/first_run/diesel.toml", "--cal", "examples/calibration/reference.toml",
                "--tick", f"{tick}ms", "--tolerant", f"{whole}ms", "--falls", "20ms", "--thresholds", "200"]
        stretch = dict(line.split() for line in told("limits"))["stretch"]
        self.assertIn(f"T is {stretch} ", told(*call)[0])

    def test_what_watches_find_is_as_coverage_says(self):
        for row in rows("coverage"):
            if row["finds"] != "-":
                [label] = [words for _, _, words, *_ in self.seen.texts if row["finds"] in words.split(", ")]
                self.assertEqual(self.span(label), (0, int(row["within"])))
                _, y = self.seen.place_of(label)
                [beside] = [words for _, foot, words, *_ in self.seen.texts if foot == y and words != label]
                self.assertIn(row["class"], re.findall(r"[a-z0-9-]+", beside))


class Chain(unittest.TestCase):
    def setUp(self):
        self.seen = Seen("chain")
        self.things = sorted((top, top + high) for _, top, _, high in self.seen.boxes)
        self.arrows = sorted((line[0][1], line[-1][1]) for line in self.seen.lines if line[0][0] == line[-1][0])

    def test_each_thing_is_joined_to_the_next(self):
        between = [(foot, top) for (_, foot), (top, _) in zip(self.things, self.things[1:])]
        self.assertEqual(len(between), len(self.arrows))
        for (foot, top), (begin, end) in zip(between, self.arrows):
            self.assertTrue(begin == foot and 0 <= top - end < 3)

    def test_each_arrow_has_one_check_that_is_there(self):
        with open(f"{TOP}/.ci/run", encoding="utf-8") as gate:
            gate = gate.read()
        for begin, end in self.arrows:
            [checks] = [words for _, y, words, *_ in self.seen.texts if words.startswith("check: ") and begin < y < end]
            for check in checks.removeprefix("check: ").split(", "):
                first, *words = check.split()
                if first == "rt":
                    self.assertIn(f"  {check} ||", gate)
                elif first == "egasim":
                    self.assertTrue(os.access(f"{TOP}/tools/{words[0].lstrip('-')}", os.X_OK), check)
                else:
                    self.assertTrue(os.path.isfile(f"{TOP}/{words[0] if first == 'sha256sum' else check}"), check)

    def test_each_trusted_part_is_named_in_the_documents(self):
        with open(f"{TOP}/docs/EVIDENCE.md", encoding="utf-8") as evidence:
            parts = re.findall(r"^\| (TR\d+)\.", evidence.read(), re.M)
        named = set()
        for _, _, words, *_ in self.seen.texts:
            if words.startswith("trusted: "):
                numbers = list(map(int, re.findall(r"TR(\d+)", words)))
                named |= set(range(numbers[0], numbers[1] + 1)) if " to TR" in words else set()
                named |= set(numbers)
        self.assertEqual(sorted(named), sorted(int(part[2:]) for part in parts))


class Goals(unittest.TestCase):
    def setUp(self):
        self.seen = Seen("goals")
        self.at = {words: (x, y - 4) for x, y, words, *_ in self.seen.texts if re.fullmatch(r"[GSKEA]\d+", words)}
        with open(f"{TOP}/docs/ARGUMENT.md", encoding="utf-8") as argument:
            lines = [line.strip("|\n ").split(" | ") for line in argument if line.startswith("|")]
        self.table = {cells[0]: cells[1:] for cells in lines if re.fullmatch(r"[GSKEA]\d+", cells[0])}

    def element(self, x, y):
        """The element at whose shape a line begins or ends."""
        [name] = [name for name, (a, b) in self.at.items() if abs(x - a) <= 24 and abs(y - b) <= 14]
        return name

    def test_each_row_stands_once_and_is_joined_to_its_parents(self):
        drawn = [words for _, _, words, *_ in self.seen.texts if re.fullmatch(r"[GSKEA]\d+", words)]
        self.assertEqual(sorted(drawn), sorted(self.table))
        joined = sorted((self.element(*line[-1]), self.element(*line[0])) for line in self.seen.lines)
        self.assertEqual(joined, sorted((name, parent) for name, (_, _, under) in self.table.items()
                                        for parent in under.split(", ") if parent != "-"))

    def test_each_text_stands_beside_its_element(self):
        for name, (_, words, _) in self.table.items():
            x, y = self.at[name]
            lower = [b for a, b in self.at.values() if b > y]
            beside = [(foot, text) for left, foot, text, *_ in self.seen.texts
                      if left > x and y - 1 < foot < min(lower, default=1e9) - 1]
            drawn = "".join(text for _, text in sorted(beside))
            self.assertEqual(re.sub("[`' ]", "", drawn), re.sub("[`' ]", "", words))

    def test_each_kind_has_its_shape(self):
        def near(tag, name, low, high):
            x, y = self.at[name]
            places = map(middle, self.seen.root.iter(f"{SVG}{tag}"))
            return sum(abs(a - x) < 4 and low <= b - y <= high for a, b in places)

        def middle(element):
            if element.get("cx"):
                return float(element.get("cx")), float(element.get("cy"))
            if element.get("points"):
                points = [tuple(map(float, point.split(","))) for point in element.get("points").split()]
                return tuple((min(side) + max(side)) / 2 for side in zip(*points))
            sides = {side: float(element.get(side) or 0) for side in ("x", "y", "width", "height")}
            return sides["x"] + sides["width"] / 2, sides["y"] + sides["height"] / 2

        for name, (kind, *_) in self.table.items():
            shapes = [near(tag, name, -2, 2) for tag in ("rect", "ellipse", "polygon")]
            self.assertEqual((*shapes, near("polygon", name, 14, 22)), {
                "goal": (1, 0, 0, 0), "context": (1, 0, 0, 0), "solution": (0, 1, 0, 0),
                "strategy": (0, 0, 1, 0), "undeveloped goal": (1, 0, 0, 1)}[kind], name)


class Levels(unittest.TestCase):
    # The element that a class hits, as C38 has it.
    HIT = {"script": "Sensors", "offset": "Sensors", "bus": "Drive trace", "plate": "Engine", "wild": "Level 3",
           "halt": "Level 1",
           **dict.fromkeys(("path1-closed", "path2-closed", "path-open"), "Power stages"),
           **dict.fromkeys(("skip", "disturb", "flip", "timing", "lapse"), "Level 2")}

    def setUp(self):
        self.seen = Seen("levels")
        self.coverage = {}
        for row in rows("coverage"):
            self.coverage.setdefault(row["class"], []).append(row)

    def told_of(self, name):
        """What stands at a class: its line and the lines below it that stand to the right."""
        [(x, y, words)] = [(x, y, words) for x, y, words, *_ in self.seen.texts
                           if re.match(rf"{name}( \(.*\))? - ", words)]
        past = [foot for left, foot, *_ in self.seen.texts if left == x and foot > y]
        more = [below for left, foot, below, *_ in self.seen.texts
                if left == x + 14 and y < foot < min(past, default=1e9)]
        return x, y, " ".join([words, *more])

    def test_each_class_stands_once_at_its_element(self):
        self.assertEqual(set(self.coverage), set(self.HIT))
        for name, title in self.HIT.items():
            x, y, _ = self.told_of(name)
            above = max((top + high, left, top, wide) for left, top, wide, high in self.seen.boxes
                        if left == x and top < y)
            [words] = [words for a, b, words, *_ in self.seen.texts
                       if abs(a - above[1] - above[3] / 2) < 2 and b == above[2] + 20]
            self.assertTrue(words.startswith(title), f"{name} stands below {words}")

    def test_each_watch_stands_at_its_class_with_the_path_that_opens(self):
        reaction = dict(line.split() for line in told("limits"))["reaction"]
        for name, cases in self.coverage.items():
            words = self.told_of(name)[2].split(" - ", 1)[1]
            ways = dict(way.rsplit(": ", 1) if ": " in way else (way, None) for way in words.split("; "))
            seen = {(watch, way) for watches, way in ways.items() for watch in watches.split(", ")}
            said = set()
            for case in cases:
                finds, off = case["finds"], case["off"]
                last = "path 2" if off.endswith(f" {reaction}") or off == reaction else "path 1"
                if off == "0" and finds == "-":
                    said.add(("off at once", None))
                elif off.startswith("excess"):
                    said.add((off, None))
                elif finds == "-":
                    said.add(("order", "path 2") if off.startswith("ordered") else ("torque", last))
                else:
                    itself = "no cut" if off.startswith("confirmed") else last
                    said.add((finds, "a test" if finds == "start" else itself))
            self.assertEqual(seen, said, name)
