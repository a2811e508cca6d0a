./egasim check cases/examples/broken.csv
