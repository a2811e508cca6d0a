./egasim check cases/examples/excess.csv
