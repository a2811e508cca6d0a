./egasim bound --cal cases/examples/tie.csv
