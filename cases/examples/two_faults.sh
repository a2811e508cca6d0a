./egasim run cases/examples/two_faults.toml
