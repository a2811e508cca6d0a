# A coupled run with noise, whose recording `replay` takes. Noise of 0 changes nothing, and no noise breaks a law.
couple() { ./egasim partner "$@" examples/own_engine/turbo.toml runaway-path1; }
couple --recording recording.csv --noise 1,0 examples/own_engine/turbo.py >record.csv
couple examples/own_engine/turbo.py | cmp - record.csv && ./egasim replay <recording.csv
couple --noise 1,50 --recording recording.csv examples/own_engine/turbo.py >record.csv
sed -n '1p;22,23p;29p' record.csv | cut -d, -f1-3,5-7,12-16,19 && sed -n '1p;21,22p;28p' recording.csv && wc -l <record.csv

# The replay of a recording has the signals and the watches of the record: of each drive span, and under a fault.
agree() { # RECORDING FIRST TICKS: those of the run from FIRST on, of the record, beside the first of the recording
  ./egasim signals --cal "$cal" <"$1" | sed 1d | sed -n "1,$3p" | cut -d, -f2-6,12 >replayed
  sed 1,2d record.csv | tail -n "+$(($2 + 1))" | head -n "$(wc -l <replayed)" | cut -d, -f12-16,19 |
    sed -E 's/(mirror|answers|start)\+?//; s/\+$//; s/,$/,-/' | cmp - replayed && echo "$1: $(wc -l <replayed) ticks agree from $2 on"
}
cal=examples/calibration/reference.toml
agree recording.csv 0 100
sed 's/\[(300, 1500, 0, 0, 0)\] \* 30/[(300, 1500, 0, 1, 1)] + [(300, 1500, 0, 0, 0)] * 60 + [(300, 1500, 0, 1, 0)] + [(900, 1500, 0, 0, 1)] * 50/' \
  examples/own_engine/partner.py >resets.py
cal=examples/calibration/brake_counts.toml
./egasim partner --recording recording.csv --noise 2,5 'python3 resets.py' --cal $cal examples/own_engine/turbo.toml sound >record.csv
agree recording.csv 0 10
agree recording-2.csv 41 30
agree recording-3.csv 102 80
# Files of an earlier call that this one doesn't write are told, and no file that is read is written over.
couple --recording recording.csv examples/own_engine/turbo.py 2>&1 >record.csv
rm recording-2.csv recording-3.csv
cp examples/own_engine/turbo.toml my.toml && cp examples/own_engine/turbo.py mine.py && cp examples/calibration/strict.toml my_cal.toml
for file in my.toml ./mine.py my_cal.toml; do
  ./egasim partner --recording $file 'python3 mine.py' --cal my_cal.toml my.toml sound 2>&1; echo "status $?"
done
cmp my.toml examples/own_engine/turbo.toml && cmp mine.py examples/own_engine/turbo.py && cmp my_cal.toml examples/calibration/strict.toml && rm my.toml mine.py my_cal.toml
cal=examples/calibration/strict.toml
./egasim study faults examples/own_engine/turbo.toml runaway all 20 >faults.toml
for class in script offset bus plate timing wild path1-closed path2-closed path-open skip disturb flip halt lapse; do
  ./egasim partner --recording recording.csv 'python3 examples/own_engine/partner.py' --cal $cal faults.toml "$class-20" >record.csv 2>told
  sed 's/^/  /' told
  if [ -s told ]; then ticks=20; else ticks=100; fi
  echo "$class: $(agree recording.csv 0 $ticks)"
done

# A report takes both; of the page the part that they have, without its pictures, and what it was made from.
./egasim report examples/first_run/levels.toml --coupled record.csv --recording recording.csv >page.html
sed -n '/<section id="others">/,/<section id="assumptions">/p' page.html | sed '/<svg/,/<\/svg>/d; s/<[^>]*>/ /g; /^ *$/d'
for file in record.csv recording.csv; do grep -c "<code>$file</code>.*$(sha256sum <$file | cut -c1-64)" page.html; done
grep -o '<code>egasim replay.*</code></' page.html | grep -c "$(./egasim replay <recording.csv | sha256sum | cut -c1-64)"
sed -n '1p;5,9p' record.csv >part.csv
for words in '--coupled part.csv' '--coupled recording.csv' '--recording record.csv' '--coupled record.csv --coupled record.csv' --recording; do
  ./egasim report examples/first_run/levels.toml $words 2>&1 | head -n 1
done

for words in '--noise 1' '--recording .' '--speed 1' '--noise 1,2'; do
  ./egasim partner $words examples/own_engine/turbo.py examples/own_engine/turbo.toml sound 2>&1 >/dev/null; echo "status $?"
done
./egasim partner --noise 2>&1; echo "status $?"
./egasim partner --noise 1,2 examples/own_engine/turbo.py examples/own_engine/turbo.toml nobody 2>&1; echo "status $?"
./egasim partner --noise 1,9 'echo 0,800,0,0,0,0,39,40,100' examples/own_engine/turbo.toml sound 2>&1 >/dev/null; echo "status $?"
for partner in true false 'kill -s KILL $$' 'read -r header; exit 3'; do
  ./egasim partner --noise 1,2 --recording recording.csv "$partner" examples/own_engine/turbo.toml sound 2>&1 | tail -n 2 | cut -c1-120; wc -l <recording.csv
done
rm -f record.csv recording.csv recording-2.csv recording-3.csv replayed resets.py faults.toml told page.html part.csv
