./egasim limits --cal examples/calibration/strict.toml
