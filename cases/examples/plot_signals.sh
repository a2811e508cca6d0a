# What ./egasim plot has gnuplot draw of signals, without the curves: the one that is called here prints what it is told.
work=$(mktemp -d) && trap 'rm -rf "$work"' EXIT && ln -s "$PWD/egasim" "$PWD/examples" "$PWD/cases" "$work" && cd "$work" || exit
printf '#!/bin/sh\ncat\n' >gnuplot && chmod +x gnuplot
./egasim signals --cal examples/calibration/strict.toml <examples/measurement/measured.csv >strict.csv
PATH=$PWD:$PATH ./egasim plot picture.png --cal examples/calibration/strict.toml strict.csv && sed '/<< END_OF_DATA/,/^END_OF_DATA/d' picture.png
