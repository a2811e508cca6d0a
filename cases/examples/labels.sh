# A calibration as a DCM, and back; a DCM with other values, what it is rounded to, and in what the calibrations differ.
work=$(mktemp -d) && trap 'rm -rf "$work"' EXIT && ln -s "$PWD/egasim" "$PWD/examples" "$PWD/cases" "$work" && cd "$work" || exit
./egasim calibration write examples/calibration/labels.toml >reference.dcm
cat reference.dcm
./egasim calibration read examples/calibration/labels.toml reference.dcm examples/calibration/reference.toml | cmp - examples/calibration/reference.toml && echo the same again

sed 's/WERT 20.0$/WERT 30.07/; s/WERT 100.0 120.0 90.0/WERT 100.0 121.04 90.0/; s/800.0/799.6/; s/WERT 250.0/WERT 250.01/' reference.dcm >new.dcm
./egasim calibration read examples/calibration/labels.toml new.dcm examples/calibration/reference.toml 2>&1 >new.toml
./egasim questions new.toml
./egasim calibration diff examples/calibration/reference.toml new.toml examples/calibration/labels.toml; echo "status $?"
./egasim calibration diff examples/calibration/reference.toml examples/calibration/brake_counts.toml; echo "status $?"
./egasim calibration diff examples/calibration/reference.toml examples/calibration/ramp.toml; echo "status $?"
./egasim calibration diff examples/calibration/reference.toml examples/calibration/reference.toml; echo "status $?"

# Files of other tools: lines that end with CR LF, Latin 1, a label that isn't wanted, and one that isn't there.
{ sed '/^FESTWERT EGM_TrqLim_C/,/^END/d' reference.dcm && printf 'FESTWERT Other\n   EINHEIT_W "\260C"\n   WERT 20\nEND\n'; } | sed 's/$/\r/' >other.dcm
./egasim calibration read --partial examples/calibration/labels.toml other.dcm examples/calibration/reference.toml 2>&1 >other.toml
cmp other.toml examples/calibration/reference.toml && echo the same
refused() { ./egasim calibration "$@" 2>&1 >refused.toml; echo "status $?"; }
refused read examples/calibration/labels.toml other.dcm examples/calibration/reference.toml
change() { sed "$1" reference.dcm >changed.dcm; refused read examples/calibration/labels.toml changed.dcm examples/calibration/reference.toml; }
change 's/"Nm"/"mNm"/'
change 's/WERT 20.0$/WERT 2000/'
change 's/ST\/X 800.0/ST\/X 3000.2/'
change 's/WERT 4.0/WERT 4,0/'
change '/^END/d'
change 's/2.0$/1.0/'
refused read examples/calibration/labels.toml examples/first_run/idle.csv examples/calibration/reference.toml
refused write examples/first_run/levels.toml
refused write examples/calibration/labels.toml examples/first_run/levels.toml
refused diff examples/calibration/reference.toml gone.toml
refused diff examples/calibration/reference.toml
