# From a changed threshold to a table of runs, in a folder that is taken away at the end.
work=$(mktemp -d) && trap 'rm -rf "$work"' EXIT && ln -s "$PWD/egasim" "$PWD/examples" "$PWD/cases" "$work" && cd "$work" || exit

# Another threshold makes other answers to the questions right, so that this file is refused: own.toml: answer 0.
sed 's/^threshold = .*/threshold = 500/' examples/calibration/reference.toml >own.toml
./egasim run --cal own.toml examples/first_run/levels.toml

# The right answers, put in.
./egasim questions own.toml

# What the calibration comes to.
./egasim limits --cal own.toml

# A run under two classes of fault, each at several onsets, and a row for each; ./egasim plot makes a picture of them.
./egasim study faults examples/first_run/sweep.toml late halt,path1-closed 0-80/10 >faults.toml
./egasim table --cal own.toml faults.toml >table.csv
cat table.csv
