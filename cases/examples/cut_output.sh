# Outputs that can't be written whole, on a full disk and beyond a limit: one line, and the status 1, or 2 where 1 is a verdict.
./egasim record examples/first_run/levels.toml full >record.csv
./egasim calibration write examples/calibration/labels.toml >labels.dcm
for set in '' 1; do
  export PYTHONUNBUFFERED=$set
  while read -r call; do
    ./egasim $call <record.csv >/dev/full
    echo "status $?"
    (ulimit -f 1 && ./egasim $call <record.csv >cut) || echo "status $?"
  done <<end
report examples/first_run/levels.toml
draw
study faults examples/first_run/levels.toml full all 0-9
calibration read examples/calibration/labels.toml labels.dcm examples/calibration/reference.toml
judge examples/first_run/expect.toml
end
done 2>&1 | cat
rm record.csv labels.dcm cut
