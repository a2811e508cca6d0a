# A plan that draws which ticks level 2 misses, by shares: how many runs of a sound drive are cut, beside what is proved. Those of
# the share 10 are played by `run` too: as many are cut.
work=$(mktemp -d) && trap 'rm -rf "$work"' EXIT && ln -s "$PWD/egasim" "$PWD/examples" "$work" && cd "$work" || exit
python3 examples/measurement/manifold.py parking trace >parking.csv
sed 's/^draw = .*/draw = 20/; s/^share = .*/share = [5, 10, 20]/' examples/first_run/missed_share.toml >plan.toml
./egasim study plan.toml study
study/slurm
./egasim study join study --picture shares.svg
sed -n 's/.*<desc[^>]*>\(.*\)<.desc>/\1/p' shares.svg
cut -d, -f1,7,9,16 study/study.csv | sed -n '1,3p'
(cd study && ./egasim run campaigns/00001.toml) | sed -n '21,40p' | grep -vc 'off never'
./egasim study join study --picture study/study.csv 2>&1 | sed -n '$p'
sed '/^draw/d; s/^share = .*/onset = 5/' plan.toml >other.toml
./egasim study other.toml other
other/slurm
./egasim study join other --picture shares.svg 2>&1 | sed -n '$p'
