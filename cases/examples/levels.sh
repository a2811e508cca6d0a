./egasim run examples/first_run/levels.toml
