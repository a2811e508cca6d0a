# What tools say of a file that they can't take: one line, and a status that isn't 0. No file is changed.
work=$(mktemp -d) && trap 'rm -rf "$work"' EXIT && ln -s "$PWD/egasim" "$PWD/examples" "$PWD/cases" "$PWD/tools" "$PWD/dist" "$work" && cd "$work" || exit
: >empty.csv
./egasim record examples/first_run/levels.toml short | sed '3s/,.*//' >cut.csv
for file in /dev/zero empty.csv cut.csv gone.csv examples/level_1/late.hex; do
  ./egasim plot picture.png $file && echo "status $?"
done 2>&1
./egasim draw <cut.csv 2>&1
printf 'torque\r\rlimit' | ./egasim draw 2>&1
./egasim record examples/first_run/levels.toml short | sed 5d | ./egasim draw 2>&1
for words in '--from 12 --to 11' '--to 1.5' --cal --form; do
  ./egasim record examples/first_run/levels.toml short | ./egasim draw $words 2>&1
done
./egasim draw 2>&1 <&-
./egasim record examples/first_run/levels.toml short >whole.csv
head -c -2 whole.csv >cut_at_end.csv
./egasim plot picture.png cut_at_end.csv 2>&1
./egasim draw 2>&1 <cut_at_end.csv
sed '$s/,[^,]*$//' whole.csv | ./egasim draw 2>&1
cp whole.csv whole.svg && ./egasim plot whole.svg whole.csv ./whole.svg 2>&1
cmp whole.csv whole.svg && rm whole.csv whole.svg cut_at_end.csv
./egasim plot picture.png cut.csv --cal examples/calibration/strict.toml 2>&1
./egasim study faults examples/first_run/sweep.toml late bus 0 >one.toml
./egasim table one.toml >one.csv
./egasim table --cal examples/calibration/strict.toml one.toml | sed 1d | cat one.csv - >two.csv
./egasim plot picture.png two.csv 2>&1
./egasim plot picture.png --cal examples/calibration/strict.toml one.csv 2>&1
rm one.toml two.csv
./egasim signals --cal examples/calibration/strict.toml <examples/measurement/measured.csv >strict.csv
sed 9d strict.csv >short.csv
sed '9s/,/,x/' strict.csv >odd.csv
sed '/^.torque/,/^.pairs/s/^limit = .*/limit = 4/' examples/calibration/strict.toml >four.toml
for files in short.csv odd.csv 'strict.csv strict.csv' '--cal four.toml strict.csv' '--from 2000 strict.csv' '--to 9 one.csv'; do
  ./egasim plot picture.png $files
done 2>&1
rm four.toml odd.csv one.csv short.csv strict.csv
for file in empty.csv gone.toml examples/first_run/levels.toml /dev/zero; do ./egasim questions $file && echo "status $?"; done 2>&1
echo 'drives = ["gone.csv"]' >plan.toml
./egasim study plan.toml study 2>&1
printf 'drives = ["examples/first_run/late.csv"]\nimages = ["examples/level_1/late.hex"]\n[[fault]]\nclass = "halt"\nonset = []\n' >plan.toml
./egasim study plan.toml study 2>&1
mkfifo pipe && sed 's/[^"]*late.hex/pipe/; s/\[\]/1/' plan.toml >endless.toml && ./egasim study endless.toml study 2>&1
./egasim study join study 2>&1
./egasim study faults examples/first_run/levels.toml full bus,bos 0 2>&1
./egasim study faults examples/first_run/levels.toml full bus 9-1 2>&1
./egasim study faults examples/first_run/levels.toml full bus 0-20000 2>&1
./egasim study faults examples/first_run/levels.toml full all 0-3000 2>&1 >/dev/null
printf 'drives = ["\\u001b[2J\\n"]\nimages = [""]\n[[fault]]\nclass = "none"\n' >plan.toml
./egasim study plan.toml study 2>&1
planned() {
  printf 'drives = ["examples/first_run/late.csv"]\nimages = ["examples/level_1/late.hex"]\n[[fault]]\nonset = 0\n'"$1"'\n' >plan.toml
  ./egasim study plan.toml study 2>&1
}
planned 'class = "track"'
planned 'class = ["halt", "path1-closed"]\ndraw = 0'
planned 'class = "script"\nvalues = { from = 0, to = 1, length = 3.0 }\ndraw = 1'
planned 'class = "offset"\nadd = '"$(printf '%0400d' 0 | tr 0 1)"
planned "class.$(yes k | head -n 900 | paste -s -d .) = 1"
planned "class.$(yes k | head -n 100000 | paste -s -d .) = 1"
printf '#!/bin/sh\nexec ./egasim "$@"\n' >script && chmod +x script
for tool in 'tools/study examples/first_run/study.toml study' 'dist/install place' 'tools/report examples/first_run/levels.toml' 'tools/partner cat examples/first_run/levels.toml full'; do
  EGASIM_PROGRAM=./script $tool 2>&1
done
rm script
dist/install '' 2>&1
ls

# A name in a campaign is written as TOML has it, whatever its characters.
printf '[[run]]\nname = "a"\ntrace = "\360\237\232\227\\u007f\\"'"'"'.csv"\nimage = "b"\n' >odd.toml
./egasim study faults odd.toml a bus 7 | od -c | sed -n '2,5p'
