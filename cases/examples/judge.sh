# Verdicts as a build server takes them: TAP, a run that no line names, and JUnit's XML. The calls are told on demand.
work=$(mktemp -d) && trap 'rm -rf "$work"' EXIT && ln -s "$PWD/egasim" "$PWD/examples" "$PWD/cases" "$work" && cd "$work" || exit
./egasim judge examples/first_run/expect.toml --junit junit.xml --verbose 2>&1; echo "status $?"
cat junit.xml
./egasim judge examples/first_run/expect.toml --strict | grep '^not ok'

# Each line made wrong by the least that makes it wrong, one after the other: just its verdicts fail.
wrong() {
  sed "$1" examples/first_run/expect.toml >wrong.toml
  printf -- '-- %s\n' "$1"; ./egasim judge wrong.toml >told; echo "status $?"; grep '^not ok' told
}
wrong 's/"340 ms"/"339 ms"/'
wrong 's/least = 3/least = 4/'
wrong 's/"torque"/"answers"/'
wrong '/"torque"/s/$/\nlatest.after_fault = 31/; s/^latest.after_excess.*//'
wrong 's/^stretch = 38/stretch = 34/'
wrong 's/after_fault = 34/after_fault = 27/'
wrong '/^latest/s/"10 ms"/"9 ms"/'
wrong 's/"mirror"/["torque", "answers"]/'
wrong 's/room = 60/room = 61/'
wrong 's/room = 20/room = 21/'
wrong 's/cut = false/sound = true/'
wrong 's/"lapse"/"full"/'
wrong 's/"lapse"/"laps?", "lapses"/'
wrong 's/^sound = true/cut = true/'

# What is refused is no verdict: status 2, and no file.
refused() { sed "$1" examples/first_run/expect.toml >wrong.toml; ./egasim judge wrong.toml --junit none.xml 2>&1; echo "status $?"; }
refused 's/^room/rome/'
refused 's/^tick.*//'
refused 's/levels.toml"/gone.toml"/'
refused 's#measurement/measured.csv"#first_run/late.csv"#'
for words in 'examples/gone.toml' '--junit' 'examples/first_run/expect.toml examples/first_run/expect.toml' 'examples/first_run/expect.toml --junit gone/j.xml'; do
  ./egasim judge $words 2>&1; echo "status $?"
done
ls

# No file that is read is written over, and where nothing is judged an earlier call's verdicts go.
for name in wrong.toml ./examples/first_run/levels.toml examples/measurement/measured.csv; do cp -f examples/first_run/expect.toml wrong.toml; ./egasim judge wrong.toml --junit "$name" 2>&1; echo "status $?"; done
./egasim judge gone.toml --junit junit.xml 2>&1; echo "status $?"; ls junit.xml 2>/dev/null
true
