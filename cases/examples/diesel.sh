./egasim run examples/first_run/diesel.toml
