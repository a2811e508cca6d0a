./egasim run --cal examples/calibration/brake_counts.toml examples/calibration/brake.toml
