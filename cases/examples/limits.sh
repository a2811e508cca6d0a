./egasim limits
