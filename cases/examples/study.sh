# A plan, its folder, its tables, and all of them in one, by two calls at once too; then a table that isn't made, one that
# is emptied and made again, and one that isn't the study's.
work=$(mktemp -d) && trap 'rm -rf "$work"' EXIT && ln -s "$PWD/egasim" "$PWD/examples" "$PWD/cases" "$work" && cd "$work" || exit
made() { if command -v make >/dev/null; then make -s -C study -j2; else study/slurm; fi; }
./egasim study examples/first_run/study.toml study
made
./egasim study join study
sed -n '1p;2p;20p' study/study.csv
cat study/matrix.csv
mv study/study.csv study.csv
./egasim study join study >/dev/null & ./egasim study join study >/dev/null
wait
cmp study/study.csv study.csv && echo two at once write what one does
./egasim study examples/first_run/study.toml study

rm study/tables/00001.csv
./egasim study join study 2>&1
: >study/tables/00002.csv
./egasim study join study 2>&1
made
./egasim study join study >/dev/null && cmp study/study.csv study.csv && echo both are made again
echo >>study/tables/00002.csv
./egasim study join study 2>&1
