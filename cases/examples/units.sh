# How long a tick is, by --tick, or by units.toml beside the calibration: times beside ticks, and Nm beside tenths of Nm, in
# a page, a picture and a study. Another calibration's folder has no units, and what is no length of a tick is refused.
work=$(mktemp -d) && trap 'rm -rf "$work"' EXIT && ln -s "$PWD/egasim" "$PWD/examples" "$PWD/cases" "$work" && cd "$work" || exit
mkdir own && cp examples/calibration/strict.toml own && echo 'tick = "10ms"' >own/units.toml
said() { sed '/aria-label="The columns"/,/<\/table>/d; /<section id="sweeps">/,$d' | sed -n "$1"; }
./egasim report examples/first_run/sweep.toml --cal own/strict.toml --tolerant 20 --falls 0 >page.html
said '/<li>Tick/p; /an excess lasts [0-9]/p; /an excess, by/p; /^<li>Greatest/p; /^<li>Longest/p; /id="limits"/,/<\/section>/s/<\/td><td>.*//p' <page.html
said '/<section id="table">/,/id="margins"/{/<th scope="row">/p}; /<section id="margins">/,${/<th scope="row">/p}' <page.html
sed -n '/<section id="sweeps">/,/<section id="pictures">/{/<th scope="row">\(skip\|lapse\)/p; s/.*<desc[^>]*>\(.*\)<.desc>/\1/p}' page.html
sed -n '/<section id="pictures">/,/<section id="assumptions">/{/<th scope="row"/p; s/.*>\(tick, [^<]*\)<.*/\1/p; s/.*>\(torque, [^<]*\)<.*/\1/p}' page.html
grep -c "<code>$(sha256sum <own/units.toml | sed 's/ .*//')</code>" page.html
./egasim report examples/first_run/sweep.toml --cal examples/calibration/strict.toml --tolerant 57.5ms --falls 0 --tick 2.5ms | said '/one listed fault an excess lasts/p'
./egasim report examples/first_run/sweep.toml --cal examples/calibration/strict.toml --tolerant 20 --falls 0 | said '/one listed fault an excess lasts/p'

./egasim record examples/first_run/levels.toml short | ./egasim draw --tick 10ms | sed -n 's/<[^>]*>\([0-9].*\|tick.*\)<.text>/\1/p' | paste -s -d ' '
sed 's|^calibration = .*||; 1i calibration = "own/strict.toml"' examples/first_run/study.toml >plan.toml
sed -i 's/to = [0-9]*, step = [0-9]*/to = 60, step = 10/; s/^draw = .*/draw = 5/' plan.toml
./egasim study plan.toml study && cat study/inputs/units.toml
if command -v make >/dev/null; then make -s -C study; else study/slurm; fi
./egasim study join study
./egasim study join study --tick 1s 2>&1

for words in '--tick 0ms' '--tick 10' --tick; do ./egasim report examples/first_run/sweep.toml $words 2>&1; done
./egasim study join study --tack 1s 2>&1
for said in 'tick = 10' 'ticks = "10ms"'; do
  echo "$said" >own/units.toml; ./egasim report examples/first_run/sweep.toml --cal own/strict.toml 2>&1 || echo "status $?"
done
