# Images by gain, offset and rate: half of the pedal is what follow.asm does, tick by tick; a source; and what is refused.
work=$(mktemp -d) && trap 'rm -rf "$work"' EXIT && ln -s "$PWD/egasim" "$PWD/examples" "$PWD/cases" "$work" && cd "$work" || exit
printf '[[run]]\nname = "a"\ntrace = "examples/power_cycles/cycles.csv"\nimage = "%s.hex"\n' examples/level_1/follow >follow.toml
sed 's/examples.level_1.follow/half/' follow.toml >half.toml
./egasim image --gain 0.5 >half.hex
./egasim record follow.toml a >follow.csv
./egasim record half.toml a | cmp - follow.csv && echo the same record

./egasim image --gain 0.8 --offset -20 --rate 30 --source --verbose 2>&1 | sed 's/asm .*/asm FILE/' >pedal.asm
cat pedal.asm
sed -i 1d pedal.asm
./egasim image --gain 0.8 --offset -20 --rate 30 >pedal.hex
./egasim asm pedal.asm | cmp - pedal.hex && echo the image of this source
sed 's/half/pedal/' half.toml >pedal.toml
./egasim record pedal.toml a | cut -d, -f1,2,17 | sed -n '1p; 41,58p'

for words in '' '--gain' '--gain 2.001' '--gain 0.0005' '--gain -1' '--gain 1e0' '--offset 1.5' '--offset 1001' '--rate 0' '--rate x' \
  '--rate 1 --rate 2' '--gains 1' pedal.asm; do
  ./egasim image $words 2>&1 | head -n 1
done
