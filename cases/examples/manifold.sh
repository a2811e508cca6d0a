# Five sound drives of an engine with a manifold, by thresholds of 300 ms: D is far above the period, and still an excess ends in
# time under lapses. By what is written no drive trips.
work=$(mktemp -d) && trap 'rm -rf "$work"' EXIT && ln -s "$PWD/egasim" "$PWD/examples" "$work" && cd "$work" || exit
words=
for drive in town hill overtaking motorway parking; do
  python3 examples/measurement/manifold.py $drive >$drive.csv
  words="$words --recording $drive.csv"
done
./egasim find$words --cal examples/calibration/reference.toml --tick 10ms --tolerant 300ms --thresholds 0-800/100 --write best.toml
./egasim limits --cal best.toml | grep -E '^(lapse|missed) '
for drive in town hill overtaking motorway parking; do ./egasim replay --cal best.toml <$drive.csv | grep '^trip'; done
