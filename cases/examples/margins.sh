./egasim margins examples/first_run/levels.toml
