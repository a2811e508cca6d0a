./egasim run examples/power_cycles/cycles.toml
