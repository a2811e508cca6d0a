# Evidence of a verdict, a page and a study: all calls that they were made from, made again, and told where something changed.
work=$(mktemp -d) && trap 'rm -rf "$work"' EXIT && ln -s "$PWD/egasim" "$PWD/examples" "$PWD/cases" "$work" && cd "$work" || exit
sums() { sed 's/[0-9a-f]\{64\}/SUM/g'; }
cp examples/first_run/diesel.csv my.csv
sed 's#examples/first_run/diesel.csv#my.csv#' examples/first_run/diesel.toml >my.toml
printf 'campaign = "my.toml"\n[[expect]]\nrun = "*"\nsound = true\n[[recording]]\nfile = "examples/measurement/measured.csv"\nroom = 20\n' >expect.toml

# The folder is named, with the checksum of its kept.sum.
./egasim judge expect.toml --keep judged --junit junit.xml | tee verdicts | sums
./egasim report my.toml --keep reported >page.html
sed -n 's/<p>\(These calls are kept.*\)<.*/\1/p' page.html | sums
./egasim study examples/first_run/study.toml study && (cd study && for campaign in campaigns/*.toml; do name=${campaign##*/} && ./work "${name%.toml}"; done)
./egasim study join study --keep joined | tail -n 1 | tee summary | sums
for folder in judged reported joined; do
  ls $folder | paste -s -d ' ' && (cd $folder && sha256sum --quiet -c kept.sum)
  cat verdicts page.html summary | grep -c "kept in $folder, whose kept.sum has the SHA-256 $(sha256sum <$folder/kept.sum | cut -c1-64)"
  ./egasim keep --again $folder
done
grep -c kept.sum junit.xml
cat judged/0*/command && cat judged/tool.sum joined/0*/read.sum | cut -c65-

# Nothing is kept where nothing is judged, or a table is lacking, and no folder is written over.
sed 's/true/false/' expect.toml >other.toml && ./egasim judge other.toml --keep none 2>&1
mv study/tables/00001.csv . && ./egasim study join study --keep none 2>&1 | tail -n 1 && mv 00001.csv study/tables
[ -e none ] || ./egasim judge expect.toml --keep judged 2>&1

# A changed drive, a changed file of the tool, another program, and a changed output.
sed 20,60d examples/first_run/diesel.csv >my.csv && echo 'cut = false' >>expect.toml
sed 4d examples/first_run/late.csv >study/inputs/drive-1.csv
for folder in judged reported joined; do ./egasim keep --again $folder >told || echo "status $?" && sums <told | cut -d' ' -f1-8; done
cp study/egasim another && echo >>another && EGASIM_PROGRAM=./another ./egasim keep --again judged | sed -n 2p | cut -d' ' -f1,2
echo 1 >reported/00003/output; ./egasim keep --again reported 2>&1 || echo "status $?"
