./egasim check examples/missing.csv
