./egasim check
