./egasim asm examples/level_1/full.asm
