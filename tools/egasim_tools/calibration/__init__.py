"""Calibrations: search, questions, labels of a DCM, differences."""
