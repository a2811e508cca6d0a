"""Measurements: mappings, sample and hold, traces and recordings."""
