examples/measurement/measure | cmp - examples/measurement/measured.csv && ./egasim replay <examples/measurement/measured.csv
