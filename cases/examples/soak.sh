./egasim soak 1 100
