./egasim signals <examples/measurement/measured.csv | grep -v ',0,0,0,0,0,-$'
