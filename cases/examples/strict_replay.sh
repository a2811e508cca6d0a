./egasim replay --cal examples/calibration/strict.toml <examples/measurement/measured.csv
