work=$(mktemp -d) && trap 'rm -rf "$work"' EXIT
./egasim record examples/first_run/levels.toml full | cut -d, -f2,3,4,7 >"$work/drive.csv" && ./egasim check "$work/drive.csv"
