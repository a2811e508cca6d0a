./egasim record examples/first_run/worked.toml raised
