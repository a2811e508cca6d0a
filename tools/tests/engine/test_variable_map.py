"""Joints of an FMU's variables: numbers worked out by hand."""

import unittest
from types import SimpleNamespace

from egasim_tools.engine.variable_map import Joint
from notes import note_of

VARIABLES = {name: SimpleNamespace(name=name, kind=kind, unit=unit, reference=0, causality="output") for name, kind, unit in (
    ("share", "Real", "%"), ("count", "Integer", None), ("flag", "Boolean", None), ("text", "String", None))}


def joint(column, name="share", **keys):
    return Joint("here", column, {"name": name, **keys}, VARIABLES)


class Joints(unittest.TestCase):
    def test_a_position_is_rounded_a_load_up_and_a_torque_down(self):
        for value, position, load, torque in ((4.04, 40, 41, 40), (4.1, 41, 41, 41), (4.16, 42, 42, 41), (0, 0, 0, 0),
                                              (4.1000001, 41, 42, 41), (4.10000001, 41, 41, 41), (4.09999999, 41, 41, 41),
                                              (100.0, 1000, 1000, 1000)):
            shown = [joint(column, factor=10).shown(0, value) for column in ("position", "load", "torque")]
            self.assertEqual(shown, [position, load, torque], value)

    def test_each_tenth_is_its_number(self):
        for number in range(1001):
            self.assertEqual([joint(column, factor=10).shown(0, number / 10) for column in ("position", "load1", "torque")], [number] * 3)

    def test_an_input_is_the_nearest_of_its_kind(self):
        self.assertEqual([joint("throttle", factor=0.1).given(number) for number in range(1001)], [number / 10 for number in range(1001)])
        self.assertEqual(joint("speed", factor=0.1, offset=-273.15).given(0), -273.15)
        self.assertEqual([joint("on", "flag", offset=-1).given(number) for number in (0, 1, 2)], [1, 0, 1])
        self.assertEqual(joint("speed", "count", factor=0.5).given(801), 400)  # of two as near the even one

    def test_out_of_range_ends_or_is_clipped_and_counted(self):
        self.assertEqual(note_of(joint("position").shown, 7, 1000.6),
                         "tick 7: position is 1001, by share = 1000.6; it may be 0 to 1000")
        self.assertEqual(note_of(joint("load").shown, 7, 65535.5), "tick 7: load is 65536, by share = 65535.5; it may be 0 to 65535")
        for value in (float("nan"), float("inf"), float("-inf")):
            self.assertEqual(note_of(joint("torque", clip=True).shown, 7, value), f"tick 7: share is {value}")
        clipped = joint("torque", clip=True)
        self.assertEqual([clipped.shown(tick, value) for tick, value in ((3, 5), (4, -1), (5, 1e300), (6, 0))], [5, 0, 65535, 0])
        self.assertEqual((clipped.clipped, clipped.first), (2, 4))

    def test_a_factor_that_is_not_that_of_the_unit_is_refused_where_the_unit_is_said_and_else_told(self):
        """By hand: 10 per mille are 1 %, 1000 are 1, 10 tenths are 1 Nm, and 9.5493 rpm are 1 rad/s."""
        for column, unit, factor, said in (
                ("position", "%", 10, None), ("position", "%", 1, "from % to per mille it is 10"), ("load2", "1", 1000, None),
                ("load", "1", 1, "from 1 to per mille it is 1000"), ("torque", "N.m", 10, None),
                ("torque", "N.m", 1, "from N.m to tenths of Nm it is 10"), ("torque", "N.m", -10, "from N.m to tenths of Nm it is 10"),
                ("throttle", "%", 0.1, None), ("throttle", "%", 10, "from per mille to % it is 0.1"), ("pedal", "1", 0.001, None),
                ("ignition", "%", 1, "from per mille to % it is 0.1"), ("raise", "N.m", 0.1, None),
                ("raise", "N.m", 1, "from tenths of Nm to N.m it is 0.1"), ("speed", "rpm", 1, None),
                ("speed", "rpm", 0.1, "from rpm to rpm it is 1"), ("speed", "rad/s", 0.10471976, None), ("speed", "rad/s", 0.1047, None),
                ("speed", "rad/s", 0.104, "from rpm to rad/s it is 0.10472"), ("speed", "rad/s", 1, "from rpm to rad/s it is 0.10472"),
                ("torque", "%", 7, None), ("torque", "J", 7, None), ("speed", None, 7, None), ("on", "1", 7, None)):
            variables = {"it": SimpleNamespace(name="it", kind="Real", unit=unit)}
            note = said and f"here.factor is {factor}, and {said}"
            told = Joint("here", column, {"name": "it", "factor": factor}, variables)
            self.assertEqual(told.note, note, (column, unit, factor))
            if unit:
                self.assertEqual(note_of(Joint, "here", column, {"name": "it", "factor": factor, "unit": unit}, variables), note)

    def test_what_is_no_joint(self):
        for told, said in (({"name": "text"}, "here: text is of the kind String, which is none of Real, Integer, Boolean"),
                           ({"name": "gone"}, "here: the FMU has no variable gone"),
                           ({"name": "count", "unit": "rpm"}, "here: count is in no unit by the FMU, and not in rpm"),
                           ({"name": "share", "factor": float("nan")}, "here.factor: nan is no number to count with"),
                           ({"name": "share", "factor": float("inf")}, "here.factor: inf is no number to count with"),
                           ({"name": "share", "offset": float("-inf")}, "here.offset: -inf is no number to count with"),
                           ({"name": "share", "factor": 0}, "here.factor is 0: whatever share is, the same would be told"),
                           ({"name": "count", "factor": -0.0}, "here.factor is 0: whatever count is, the same would be told"),
                           ({"name": "share", "factor": True}, "here: factor has to be a number"),
                           ({"name": "share", "clip": 1}, "here: clip has to be true or false"),
                           ({"name": "share", "gain": 1}, "here: there is no key gain; the keys are name, unit, factor, offset, clip"),
                           ("share", 'here: a table with the variable\'s name is wanted: { name = ".." }')):
            self.assertEqual(note_of(Joint, "here", "load", told, VARIABLES), said)
