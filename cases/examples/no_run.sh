./egasim record examples/first_run/levels.toml unheard-of
