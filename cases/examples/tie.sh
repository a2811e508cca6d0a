./egasim check cases/examples/tie.csv
