./egasim run --cal examples/calibration/strict.toml examples/first_run/missed.toml
