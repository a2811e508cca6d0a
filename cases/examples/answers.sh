./egasim answers cases/examples/threshold.toml
