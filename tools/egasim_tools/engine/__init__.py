"""Engines beside the unit: partners, FMUs, noise."""
