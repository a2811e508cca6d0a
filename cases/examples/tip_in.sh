./egasim check cases/examples/tip_in.csv
