./egasim bound --cal examples/calibration/reference.toml
