./egasim bound --cal cases/examples/threshold.toml
