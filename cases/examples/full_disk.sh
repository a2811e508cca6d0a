./egasim check cases/examples/excess.csv >/dev/full
