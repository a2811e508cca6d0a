# A measurement of 60 s as a measuring tool exports it: as a recording, with its gap held or cut out, and as a drive. Other
# forms of the same measurement give the same, --check writes nothing, and what is refused is told in a line.
work=$(mktemp -d) && trap 'rm -rf "$work"' EXIT && ln -s "$PWD/egasim" "$PWD/examples" "$PWD/cases" "$work" && cd "$work" || exit
python3 examples/measurement/exported.py >exported.csv
./egasim measured examples/measurement/exported_readings.toml exported.csv readings.csv
./egasim replay <readings.csv
./egasim replay --cal examples/calibration/strict.toml <readings.csv | sed -n '6,7p'
sed 's/^gap = .*/gap = "cut"/' examples/measurement/exported_readings.toml >cut.toml
./egasim measured cut.toml exported.csv part.csv | sed -n '2,4p'
{ sed 1d part-1.csv; sed 1d part-2.csv; } >joined && sed '1d; 205,241d' readings.csv | cmp - joined && echo 'the same but for the gap'

./egasim measured examples/measurement/exported.toml exported.csv drive.csv
cat drive.toml
./egasim run drive.toml
./egasim report drive.toml --room 20 | sed -n '/"verdict"/,/<.ul>/{s/<[^>]*>//g;/sound/p}'
LC_ALL=C sed '1s/^...//; s/,/./g; s/;/,/g; s/"//g; s/\r$//' exported.csv >plain.csv
iconv -f UTF-8 -t UTF-16 exported.csv >wide.csv
{ printf 'lines above\nthe names\n\n' && LC_ALL=C sed '1s/^...//; s/;/\t/g' exported.csv; } >tabs.csv
for form in plain wide tabs; do
  ./egasim measured examples/measurement/exported.toml $form.csv other.csv | head -n 1
  cmp drive.csv other.csv
done
rm ./*.csv ./*.toml joined && python3 examples/measurement/exported.py >exported.csv
./egasim measured --check examples/measurement/exported.toml exported.csv
ls

refused() { sed "$1" examples/measurement/exported.toml >odd.toml; ./egasim measured --check odd.toml exported.csv 2>&1; }
refused 's/APP_r1/APP/'
refused 's/^raise.*//'
refused 's/"10ms"/"10"/'
refused 's/^channel = "time"/channel = "v_kmh"/'
sed '3000s/^[0-9,]*/40,00/' exported.csv >falls.csv
./egasim measured --check examples/measurement/exported.toml falls.csv 2>&1
sed '3000s/;[^;]*;/;12,5 %;/' exported.csv >text.csv
./egasim measured examples/measurement/exported.toml text.csv exported.csv 2>&1
./egasim measured examples/measurement/exported.toml exported.csv exported.csv 2>&1
./egasim measured examples/measurement/exported.toml gone.csv drive.csv 2>&1
./egasim measured examples/measurement/exported.toml exported.csv 2>&1
ls

# What is read stays, and what stands there still is told; so are a contact that never fits, and a time that nobody uses.
cp examples/measurement/exported.toml drive.toml
./egasim measured drive.toml exported.csv drive.csv 2>&1
sed 's/^gap = .*/gap = "cut"/' examples/measurement/exported_readings.toml >cut.toml
./egasim measured cut.toml exported.csv part.csv >told
./egasim measured examples/measurement/exported_readings.toml exported.csv part.csv | tail -n 2
sed '$a brake1 = { value = 0 }\nbrake2 = { of = "brake1" }' examples/measurement/exported_readings.toml >brake.toml
./egasim measured --check brake.toml exported.csv | tail -n 3
refused 's/^channel = "time"/&\nunit = "ms"/'
printf 't10,P,t20,N\ns,%%,s,rpm\n0,1,0,900\n0.01,2,0.02,910\n0.02,3,0.04,920\n' >times.csv
sed 's/"time"/"t10"/; s/APP_r1/P/; s/n_crank/N/; s/^raise.*/raise = { value = 0 }/' examples/measurement/exported.toml >times.toml
./egasim measured --check times.toml times.csv
sed 's/"N"/"N", time = "t20"/' times.toml >both.toml
./egasim measured --check both.toml times.csv
ls
