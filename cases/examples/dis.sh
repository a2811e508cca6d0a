./egasim dis examples/level_1/full.hex
