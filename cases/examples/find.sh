# The least limits that ./egasim find tells, beside all limits of a small grid, each of them tried by `run` and `replay` alone:
# of each threshold the least limit by which neither of two drives nor a recording is cut. Then what is refused.
work=$(mktemp -d) && trap 'rm -rf "$work"' EXIT && ln -s "$PWD/egasim" "$PWD/examples" "$PWD/cases" "$work" && cd "$work" || exit
find() { ./egasim find examples/first_run/diesel.toml --cal examples/calibration/reference.toml --tick 10ms --tolerant 300ms --falls 20ms "$@"; }
find --thresholds 100-500/200 --recording examples/measurement/measured.csv --picture best.svg --write best.toml | tee told
./egasim limits --cal best.toml | sed -n 1p
for threshold in 100 300 500; do
  sed "s/^threshold = .*/threshold = $threshold/" examples/calibration/reference.toml >answered.toml
  ./egasim questions answered.toml >answers
  least=
  for limit in 8 7 6 5 4 3 2 1; do
    sed "/^.torque/,/^.pairs/s/^limit = .*/limit = $limit/" answered.toml >tried.toml
    ./egasim run --cal tried.toml examples/first_run/diesel.toml | grep 'first torque' >found && break
    ./egasim replay --cal tried.toml <examples/measurement/measured.csv | grep '^torque at' >found && break
    least=$limit
  done
  awk -v threshold=$threshold -v least="$least" '($1 == "*" ? $2 : $1) == threshold {
    told = $1 == "*" ? $4 : $3; print threshold ": least limit " least (told == least ? ", as told" : ", and not " told) }' told
done
# Three drives and two ramps: of a small grid each limit is tried by `run` alone. From the least limit that is told on no
# drive is cut, and by each one below it some drive is.
cat examples/first_run/diesel.toml examples/calibration/bursts.toml >three.toml
./egasim find three.toml --cal examples/calibration/ramp.toml --tolerant 30 --thresholds 200-400/100 --ramps 50,150 --without-lapses | tee told
for threshold in 200 300 400; do
  for fall in 150 50; do
    sed "s/^threshold = .*/threshold = $threshold/; s/^fall = .*/fall = $fall/" examples/calibration/ramp.toml >answered.toml
    ./egasim questions answered.toml >answers
    uncut=
    for limit in 1 2 3 4 5 6; do
      sed "/^.torque/,/^.pairs/s/^limit = .*/limit = $limit/" answered.toml >tried.toml
      ./egasim run --cal tried.toml three.toml | grep 'first torque' >found || uncut="$uncut $limit"
    done
    sed 's/^\*/ /' told | awk -v threshold=$threshold -v fall=$fall -v uncut="$uncut" '$1 == threshold && $2 == fall {
      print threshold ", fall " fall ": least limit " $5 " is told, and no drive is cut by" uncut }'
  done
done
# With ramps, and with a file that has one. With a ramp something fits only by a word.
find --thresholds 0,100 --ramps 0,50-150/50
find --thresholds 0,100 --ramps 50-150/50 --without-lapses --write ramped.toml
head -n 2 ramped.toml
diff examples/calibration/reference.toml ramped.toml | grep -E '^[<>] (version|threshold|brake|fall) '
./egasim limits --cal ramped.toml | grep -E '^(missed|ramp) '
./egasim find examples/first_run/diesel.toml --cal examples/calibration/ramp.toml --tolerant 75 --thresholds 200
./egasim find examples/first_run/diesel.toml --cal examples/calibration/ramp.toml --tolerant 30 --thresholds 200 --without-lapses --without-held-torque
./egasim find examples/first_run/diesel.toml --cal ramped.toml --tolerant 30 --thresholds 200 --ramps 0,120 --write plain.toml
grep -E 'version|find|^(brake|fall) ' plain.toml
# A comment that names a version doesn't stay beside another one; and a recording that begins on a ramp.
./egasim find examples/first_run/diesel.toml --cal examples/calibration/ramp.toml --tolerant 30 --thresholds 200 --ramps 0 --write plain.toml | sed -n '$p'
grep version plain.toml
sed 2,1184d examples/measurement/measured.csv >begun.csv
./egasim find --recording begun.csv --cal examples/calibration/ramp.toml --tolerant 180 --thresholds 200 --without-lapses
./egasim find examples/first_run/diesel.toml --cal examples/calibration/ramp.toml --tolerant 5 --thresholds 200 --ramps 120
sed 's/^fall = .*/fall = 0/' examples/calibration/ramp.toml >never.toml
./egasim find examples/first_run/diesel.toml --cal never.toml --tolerant 30 --ramps 0
for ramps in 1.5 abc 50-150 20000 150-50/5 0-9000/1; do find --thresholds 100 --ramps $ramps; done
find --thresholds 0-800/1 --ramps 1,2
find --thresholds 100 --tolerant 10
./egasim find examples/first_run/diesel.toml --cal examples/calibration/reference.toml --tolerant 10 --thresholds 100,300
./egasim find examples/first_run/diesel.toml --cal examples/calibration/reference.toml --tolerant 300ms
./egasim find examples/first_run/diesel.toml --cal examples/calibration/reference.toml --tolerant 30 --thresholds 300-100/50
./egasim find examples/first_run/levels.toml --cal examples/calibration/reference.toml --tolerant 30 --thresholds 200
./egasim find --cal examples/calibration/reference.toml --tolerant 30
cp examples/first_run/diesel.toml drives.toml
./egasim find drives.toml --cal examples/calibration/reference.toml --tolerant 30 --thresholds 200 --write drives.toml
sed 's/follow/trapped/' examples/first_run/diesel.toml >trapped.toml
./egasim find trapped.toml --cal examples/calibration/reference.toml --tolerant 30 --thresholds 200
true
