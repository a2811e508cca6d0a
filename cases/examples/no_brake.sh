./egasim run examples/calibration/brake.toml
