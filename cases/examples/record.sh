./egasim record examples/first_run/levels.toml short
