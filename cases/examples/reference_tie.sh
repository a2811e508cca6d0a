./egasim check --cal examples/calibration/reference.toml cases/examples/tie.csv
