./egasim run examples/first_run/worked.toml
