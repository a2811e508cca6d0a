./egasim table examples/first_run/levels.toml
