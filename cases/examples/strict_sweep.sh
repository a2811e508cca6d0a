./egasim sweep --cal examples/calibration/strict.toml examples/first_run/sweep.toml late 1
