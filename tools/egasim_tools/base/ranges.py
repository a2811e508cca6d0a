"""The greatest numbers that the program takes (docs/FORMATS.md). tools/tests/base/test_ranges.py tries each, and one more."""

FULL = 1000  # of a pedal, a plate, a throttle or a load in a drive, in per mille
SPEED = 8000  # in rpm
RAISE = 10000  # in tenths of Nm; no table permits more
WORD = 65535  # of a word of the unit, and of a reading
TRACE_TICKS = 20000
RUNS, CAMPAIGN_TICKS = 1000, 1000000  # of a campaign, and of the grid of a sweep
LIST_LENGTH = 64  # of the lists of a fault
