./egasim check --cal examples/calibration/strict.toml cases/examples/tie.csv
