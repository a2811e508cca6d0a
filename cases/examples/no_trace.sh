./egasim run cases/examples/no_trace.toml
