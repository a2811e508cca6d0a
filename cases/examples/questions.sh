# What the questions of a calibration exercise, and questions that exercise everything. Every other byte of the file stays:
# without the questions' numbers both files are the same. By the program itself a threshold or a tolerance that is wrong by
# one then changes an answer. Then a file that is written in other ways, and a calibration by which nothing is an excess.
work=$(mktemp -d) && trap 'rm -rf "$work"' EXIT && ln -s "$PWD/egasim" "$PWD/examples" "$PWD/cases" "$work" && cd "$work" || exit
sed 's/^threshold = .*/threshold = 500/; /^.pairs/,/^.plant/s/^load = .*/load = 80/' examples/calibration/reference.toml >own.toml
./egasim questions --cover own.toml
cp own.toml before.toml
./egasim questions --fill own.toml
./egasim questions --cover own.toml
./egasim questions own.toml
./egasim limits --cal own.toml | grep peak
without_numbers() { sed '/^.*question/,$s/[0-9][0-9]*/N/g' "$1"; }
without_numbers before.toml >before && without_numbers own.toml | cmp - before && echo "all else is the same"
./egasim answers own.toml >right
for change in threshold:500:499 threshold:500:501 pedal:50:49 pedal:50:51 plate:50:49 plate:50:51 load:80:79 load:80:81 \
  speed:50:49 speed:50:51; do
  key=${change%%:*} new=${change##*:}
  sed "/^.question/,\$!s/^$key = [0-9]*\$/$key = $new/" own.toml >wrong.toml
  ./egasim answers wrong.toml | cmp -s right - || echo "$key $new: another answer"
done

printf '\357\273\277' >odd.toml
sed 's/^answer = 8842/answer = 0x228A # answer = 1/; s/^load = .300, 300./load = [ 3_00, # load = [1, 2]\n  300, ]/' examples/calibration/reference.toml >>odd.toml
cp odd.toml before.toml
./egasim questions odd.toml
./egasim questions --fill odd.toml
diff before.toml odd.toml | grep '#'

sed 's/^threshold = .*/threshold = 2497/; s/^charge = .*/charge = [40, 300, 999]/' examples/calibration/reference.toml >none.toml
./egasim questions --fill none.toml
./egasim questions --cover none.toml | tail -n 2
printf 'pedal,speed,raise\n' >fast.csv
yes 0,6000,0 | head -n 60 >>fast.csv
printf '[[run]]\nname = "full"\ntrace = "fast.csv"\nimage = "examples/level_1/full.hex"\n' >full.toml
./egasim run --cal none.toml full.toml
for words in '' --cover '--fill gone.toml' '--cover own.toml odd.toml' '--full own.toml'; do
  ./egasim questions $words 2>&1 | head -n 1
done
