./egasim bound --cal examples/calibration/strict.toml
