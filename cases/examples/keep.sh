# Evidence that tells what made it: kept of a report on runs and of a replay, made again, and told where something changed.
cp examples/first_run/diesel.csv my.csv
sed 's#examples/first_run/diesel.csv#my.csv#' examples/first_run/diesel.toml >my.toml
./egasim keep kept -- egasim table --cal examples/calibration/strict.toml my.toml
./egasim keep replayed -- egasim replay <examples/measurement/measured.csv
./egasim keep refused -- ./egasim record my.toml nobody
for folder in kept replayed refused; do
  (cd $folder && ls | tr '\n' ' ' && sha256sum --quiet -c kept.sum && cat command status notes)
  ./egasim keep --again $folder
done
./egasim table --cal examples/calibration/strict.toml my.toml | cmp - kept/output && cmp examples/measurement/measured.csv replayed/input
sed 's/^[0-9a-f]*/SUM/' kept/read.sum && sha256sum --quiet -c kept/read.sum && grep -c "^program [0-9a-f]*" kept/version
sed 20,60d examples/first_run/diesel.csv >my.csv
./egasim keep --again kept >told || echo "status $?" && sed 's/[0-9a-f]\{64\}/SUM/g' told
echo 1 >kept/status && ./egasim keep --again kept 2>&1
./egasim keep replayed -- egasim bound 2>&1
./egasim keep other -- my/egasim bound 2>&1 | cut -d, -f1
rm -r told my.csv my.toml kept replayed refused
