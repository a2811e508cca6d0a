./egasim bound
