./egasim run cases/examples/unknown_key.toml
