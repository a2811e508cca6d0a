./egasim sweep examples/first_run/sweep.toml late 1
